"""A thousand rates of the dollar that are equally likely, as a set of scenarios: python3 thousand.py > thousand.csv

They are quantiles of a normal distribution round 0.9200 with a standard deviation of 0.0300, each from the middle of its thousandth.
"""

from statistics import NormalDist

rates = NormalDist(0.92, 0.03)
print("scenario,label,day,value")
for number in range(1000):
    print(f"s{number},USDEUR,2026-03-30,{rates.inv_cdf((number + 0.5) / 1000):.4f}")
