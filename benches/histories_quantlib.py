"""Forwards and swaps of a member's book by QuantLib, day by day, beside a history: histories_quantlib.py HISTORY, in its folder."""

import csv
import datetime
import re
import sys
import time

import QuantLib as ql

FIRST = datetime.date(2026, 1, 5)
FORWARD = re.compile(r"after\((\d+), both\(scale\(([\d.]+), pay\((\w+), (\w+), (\w+)\)\), scale\(([\d.]+), pay\((\w+), (\w+), (\w+)\)\)\)\)")
LEG = re.compile(r"after\((\d+), both\(let x = round\(half_even, 2, \(obs\(Euribor, 0\) \* ([\d.]+)\)\) in after\(180, scale\(x, pay\((\w+), (\w+), (\w+)\)\)\),"
                 r" after\(180, scale\(([\d.]+), pay\(\w+, \w+, \w+\)\)\)\)\)")


def date(day):
    it = FIRST + datetime.timedelta(day)
    return ql.Date(it.day, it.month, it.year)


def contracts(text):
    """The forwards, as payments; and the swaps, as legs of a day, a nominal and a fixed payment, all in one direction."""
    for line in text.splitlines():
        if not line.startswith("contract"):
            continue
        name = line.split()[1]
        if found := FORWARD.search(line):
            day, *rest = found.groups()
            yield name, [(int(day), amount, asset, payer, receiver) for amount, asset, payer, receiver in (rest[:4], rest[4:])], []
        else:
            yield name, [], [(int(day), float(nominal), asset, payer, receiver, float(fixed)) for day, nominal, asset, payer, receiver, fixed in LEG.findall(line)]


def rates(text):
    """Euribor as it was known on each day."""
    rows = {row[1]: float(row[2]) for row in csv.reader(text.splitlines()) if row[0] == "Euribor"}
    last, found = 0.0, {}
    for day in range(-10, 400):
        last = rows.get(str(FIRST + datetime.timedelta(day)), last)
        found[day] = last
    return found


def main():
    rows = [row for row in csv.reader(open(sys.argv[1])) if row[0] != "day"]
    factors = [float(row[1]) for row in csv.reader(open("curve.csv")) if row[0] != "offset"]
    book, known = list(contracts(open("book.txt").read())), rates(open("fixings.csv").read())
    begun = time.process_time()
    values, settings = {}, ql.Settings.instance()
    settings.includeReferenceDateEvents = True
    for day in sorted({(datetime.date.fromisoformat(row[0]) - FIRST).days for row in rows}):
        today = date(day)
        settings.evaluationDate = today
        # A curve has no two dates of one day.
        curve = ql.YieldTermStructureHandle(ql.DiscountCurve([today + it for it in range(len(factors))], factors, ql.Actual365Fixed()))
        for name, payments, legs in book:
            for flow_day, amount, asset, payer, receiver in payments:
                leg = [ql.SimpleCashFlow(float(amount), date(flow_day))]
                values[day, name, asset, payer, receiver] = ql.CashFlows.npv(leg, curve, True, today, today)
            if legs:
                flows = []
                for start, nominal, asset, payer, receiver, fixed in legs:
                    rate = known[min(day, start)]
                    flows += [ql.SimpleCashFlow(round(rate * nominal, 2), date(start + 180)), ql.SimpleCashFlow(-fixed, date(start + 180))]
                values[day, name, asset, payer, receiver] = ql.CashFlows.npv(flows, curve, True, today, today)
    took = time.process_time() - begun
    worst = 0.0
    for row in rows:
        day = (datetime.date.fromisoformat(row[0]) - FIRST).days
        key = (day, row[1], row[4], row[2], row[3])
        got = values[key] if key in values else -values[day, row[1], row[4], row[3], row[2]]
        worst = max(worst, abs(got - float(row[5])))
    print(f"{len(values)} values by QuantLib in {took:.2f} s of a processor without its start; the greatest difference is {worst:.6f}")


main()
