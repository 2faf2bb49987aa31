"""A bond, a swap and an option of QuantLib as files of the folder in which it is run: python3 desk.py"""

import QuantLib as ql
from tilugba.terms.legs import Legs, factors


def dates(start, end, tenor):
    rule = ql.ModifiedFollowing
    return ql.Schedule(start, end, ql.Period(tenor), ql.TARGET(), rule, rule, ql.DateGeneration.Forward, False)


today = ql.Date(5, 1, 2026)
ql.Settings.instance().evaluationDate = today
curve = ql.FlatForward(today, 0.021, ql.Actual365Fixed())
euribor = ql.Euribor6M(ql.YieldTermStructureHandle(curve))
# What is known of the rate; all later ones QuantLib takes from its curve.
euribor.addFixing(ql.Date(13, 1, 2025), 0.02616)
euribor.addFixing(ql.Date(11, 7, 2025), 0.02049)

bond = ql.FixedRateBond(2, 1e6, dates(ql.Date(15, 1, 2025), ql.Date(15, 1, 2030), "1y"), [0.0325], ql.Thirty360(ql.Thirty360.BondBasis))
halves = dates(ql.Date(15, 1, 2025), ql.Date(15, 1, 2028), "6m")
swap = ql.VanillaSwap(ql.Swap.Payer, 5e6, halves, 0.024, ql.Thirty360(ql.Thirty360.BondBasis), halves, euribor, 0.0, ql.Actual360())
call = ql.PlainVanillaPayoff(ql.Option.Call, 1.17)

legs = Legs(today, rate_decimals=12)
legs.add_leg("bond", bond.cashflows(), "EUR", "Issuer", "Desk")
legs.add_leg("swap", swap.fixedLeg(), "EUR", "Desk", "Bank")
legs.add_leg("swap", swap.floatingLeg(), "EUR", "Bank", "Desk")
legs.add_option("call", call, ql.Date(30, 6, 2026), "EURUSD", 1e5, "EUR", "Bank", "Desk")

paid = [flow.date() for leg in (bond.cashflows(), swap.fixedLeg(), swap.floatingLeg()) for flow in leg]
for name, text in (("rows.csv", legs.table()), ("observed.csv", legs.fixings_table()), ("assumed.csv", legs.fixings_table(with_assumed=True)),
                   ("curve.csv", factors(curve, today, paid))):
    with open(name, "w", encoding="utf-8") as file:
        file.write(text)
