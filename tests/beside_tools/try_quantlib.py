"""QuantLib beside the program: flow lines against its amounts, values against its present values."""

import os
import sys
import tempfile
from fractions import Fraction

import bench
from bench import read, run, write

sys.path.insert(0, os.path.join(bench.TOP, "desk"))
import QuantLib as ql
import quantlib_terms
from tilugba.terms.legs import Legs, factors, plain, rounded

DESK = os.path.join(bench.TOP, "desk", "tilugba-desk")
HERE = os.path.join(bench.EXAMPLES, "quantlib")
ORIGIN = ql.Date(5, 1, 2026)
PARTIES = ["Desk", "Bank"]
OUT, BACK = ("EUR", "Desk", "Bank"), ("EUR", "Bank", "Desk")
THIRTY = ql.Thirty360(ql.Thirty360.BondBasis)
ISDA = ql.ActualActual(ql.ActualActual.ISDA)
COUNTERS = (ql.Actual360(), ql.Actual365Fixed(), THIRTY, ql.Thirty360(ql.Thirty360.European), ISDA)
# A day on which all rates are known.
LATER = ql.Date(1, 1, 2050)
# Half of the last decimal of a factor.
COARSE = Fraction(1, 2 * 10 ** 9)


def schedule(start, end, tenor, rule=ql.ModifiedFollowing):
    return ql.Schedule(start, end, ql.Period(tenor), ql.TARGET(), rule, rule, ql.DateGeneration.Forward, False)


def run_desk(program, *words):
    """Runs a subcommand of the desk by this Python, and returns what it prints."""
    status, text, said = run(sys.executable, "-B", DESK, *words, env={**os.environ, "TILUGBA": program})
    return text if status == 0 else f"status {status}, {said}"


class Book(Legs):
    """Legs of QuantLib, as the portfolio that the command `rows` makes of them."""

    def __init__(self, rates=5, bounds=("-0.05", "0.25")):
        super().__init__(ORIGIN, rate_decimals=rates)
        self.bounds = bounds

    def contract(self, name, *legs):
        for leg, *way in legs:
            self.add_leg(name, leg, *way)

    def portfolio(self, program):
        head = ["portfolio 1;", "amounts 2;", f"origin {ORIGIN.ISO()};", f"party {', '.join(PARTIES)};", "asset EUR;"]
        labels = dict.fromkeys(row["label"] for row in self.rows if "label" in row)
        numbers = {name: (self.rate_decimals, *self.bounds) for name in labels} | ({"FX": (4, "0.5", "2.0")} if "FX" in labels else {})
        head += [f"num {name} : {places} in {low} .. {high};" for name, (places, low, high) in numbers.items()]
        write("".join(f"{line}\n" for line in head), "decls.txt")
        write(self.table(), "rows.csv")
        return run_desk(program, "rows", "decls.txt", "rows.csv")


def flow_lines(program, book, table, *words):
    """The flow lines by contract and date: what the desk pays, in cents."""
    write(book, "book.txt")
    write(table, "table.csv")
    status, text, said = run(program, "flows", "book.txt", "table.csv", *words)
    if status != 0:
        return f"status {status}, {text}{said}"
    lines = {}
    for line in text.splitlines():
        name, day, payer, _, _, amount = line.split(",")
        lines[name, day] = int(amount.replace(".", "")) * (1 if payer == "Desk" else -1)
    return lines


def cents(amount):
    """QuantLib's double, rounded to cents."""
    return int(rounded(amount, 2).replace(".", ""))


def without_zeros(sums):
    return {key: amount for key, amount in sums.items() if amount}


def added(name, *legs):
    """The amounts of QuantLib, each rounded to cents, by date: those that the desk pays, less those that it gets."""
    sums = {}
    for leg, sign in legs:
        for flow in leg:
            key = name, flow.date().ISO()
            sums[key] = sums.get(key, 0) + sign * cents(flow.amount())
    return without_zeros(sums)


# ---- A bond, a swap, options


def some_bond(nominal=1e6):
    return ql.FixedRateBond(2, nominal, schedule(ql.Date(15, 1, 2026), ql.Date(15, 1, 2031), "1y"), [0.0325], THIRTY).cashflows()


def some_swap(dice, index, nominal=1e7):
    """Ten years of quarters, all of whose rates are known."""
    dates = schedule(ql.Date(15, 1, 2026), ql.Date(15, 1, 2036), "3m")
    swap = ql.VanillaSwap(ql.Swap.Payer, nominal, dates, 0.0275, THIRTY, dates, index, 0.001, ql.Actual360())
    for flow in swap.floatingLeg():
        index.addFixing(ql.as_floating_rate_coupon(flow).fixingDate(), dice.between(-500, 6000) / 1e5, True)
    return swap.fixedLeg(), swap.floatingLeg()


def try_legs(own, program, dice, index):
    book = Book()
    bond, (fixed, floating) = some_bond(), some_swap(dice, index)
    book.contract("bond", (bond, *BACK))
    book.contract("swap", (fixed, *OUT), (floating, *BACK))
    delivered = [ql.SimpleCashFlow(1234567.89, ql.Date(1, 7, 2026)), ql.SimpleCashFlow(-250000.5, ql.Date(2, 7, 2026))]
    book.contract("forward", (delivered, *OUT))
    want = {**added("bond", (bond, -1)), **added("swap", (fixed, 1), (floating, -1)), **added("forward", (delivered, 1))}
    own.same("QuantLib, number of payments", 5 + 40 + 2, len(want))
    own.same("QuantLib, bond, swap and forward", want, flow_lines(program, book.portfolio(program), book.fixings_table()))
    return bond, fixed, floating


def try_options(own, program, dice):
    """Calls and puts at expiry: what QuantLib's payoffs say of the rate of that day."""
    book = Book()
    exact, doubles, rates = {}, {}, {}
    for number in range(200):
        expiry = ORIGIN + dice.between(0, 400)
        rate, strike = rates.setdefault(expiry.ISO(), dice.between(9000, 13000)), dice.between(9000, 13000)
        sign, nominal = dice.one((1, -1)), dice.between(1, 10 ** 7) / 100
        payoff = ql.PlainVanillaPayoff(ql.Option.Call if sign == 1 else ql.Option.Put, strike / 1e4)
        key = f"o{number}", expiry.ISO()
        book.add_option(key[0], payoff, expiry, "FX", nominal, *OUT)
        doubles[key] = cents(payoff(rate / 1e4) * nominal)
        exact[key] = Fraction(max(0, sign * (rate - strike)), 100) * Fraction(plain(nominal))
    table = "label,day,value\n" + "".join(f"FX,{day},{plain(rate / 1e4)}\n" for day, rate in rates.items())
    own.judge(50 < sum(amount > 0 for amount in exact.values()) < 150, "QuantLib, options: too few pay, or too many")
    whose_cents(own, "options at expiry", exact, doubles, flow_lines(program, book.portfolio(program), table))


# ---- Legs at random, and whose cent it is


def whose_cents(own, title, exact, doubles, lines):
    """Each line is the exact amount, rounded once. QuantLib's is another one only if the exact amount is in the middle of two cents,
    and then by a cent. Answers how many are."""
    own.same(f"QuantLib, {title}", without_zeros({key: round(amount) for key, amount in exact.items()}), lines)
    differ = {key: amount for key, amount in exact.items() if doubles[key] != round(amount)}
    own.judge(all(amount.denominator == 2 for amount in differ.values()), f"QuantLib, {title}: apart, and in no middle of two cents")
    own.judge(all(abs(doubles[key] - amount) * 2 == 1 for key, amount in differ.items()), f"QuantLib, {title}: more than a cent apart")
    return len(differ)


def part_of_a_year(counter, start, end):
    """The exact quotient of a year fraction."""
    if counter.name() != ISDA.name():
        return Fraction(counter.dayCount(start, end), 365 if counter.name() == "Actual/365 (Fixed)" else 360)
    part = Fraction(0)
    while start < end:
        until = min(end, ql.Date(1, 1, start.year() + 1))
        part += Fraction(until - start, 366 if ql.Date.isLeap(start.year()) else 365)
        start = until
    return part


def some_leg(dice, indexes, is_round):
    """A leg, and the exact rate of each of its coupons."""
    tenor = dice.one(sorted(indexes))
    start = ORIGIN + dice.between(0, 400)
    dates = schedule(start, start + dice.between(300, 5000), tenor, dice.one((ql.ModifiedFollowing, ql.Following, ql.Unadjusted)))
    counter = dice.one(COUNTERS)
    nominal = 25.0 * dice.between(1, 40_000) if is_round else dice.between(1, 10 ** 9) / 100
    if dice.below(3) == 0:
        rate = dice.between(-100, 900) / 1e4
        leg = ql.FixedRateLeg(dates, counter, [nominal], [rate])
        return leg, counter, [Fraction(plain(rate))] * len(leg)
    gearing, spread = dice.one((1.0, 1.0, 0.5, -1.0, 1.25)), dice.one((0.0, 0.001, -0.0025))
    leg = ql.IborLeg([nominal], dates, indexes[tenor], counter, ql.ModifiedFollowing, [2], [gearing], [spread])
    rates = []
    for flow in leg:
        coupon = ql.as_floating_rate_coupon(flow)
        if not indexes[tenor].hasHistoricalFixing(coupon.fixingDate()):
            indexes[tenor].addFixing(coupon.fixingDate(), dice.between(-500, 6000) / 1e5)
        rates.append(Fraction(plain(gearing)) * Fraction(plain(coupon.indexFixing())) + Fraction(plain(spread)))
    return leg, counter, rates


def try_cents(own, program, dice, indexes, title, is_round):
    """Legs at random; answers what the page says of them."""
    book = Book(bounds=("-0.1", "0.2"))
    exact, doubles = {}, {}
    for number in range(300):
        leg, counter, rates = some_leg(dice, indexes, is_round)
        book.contract(f"leg{number}", (leg, *OUT))
        for flow, rate in zip(leg, rates):
            coupon, key = ql.as_coupon(flow), (f"leg{number}", flow.date().ISO())
            part = part_of_a_year(counter, coupon.accrualStartDate(), coupon.accrualEndDate())
            exact[key] = Fraction(plain(coupon.nominal())) * rate * part * 100
            doubles[key] = cents(flow.amount())
    differ = whose_cents(own, title, exact, doubles, flow_lines(program, book.portfolio(program), book.fixings_table()))
    own.judge(len(exact) > 5000, f"QuantLib, {title}: only {len(exact)} coupons")
    return f"{differ} of {len(exact):,}"


# ---- Values


def try_values(own, program, title, book, curve, days):
    """On each day `value` is exactly the sum of lines times factors, and QuantLib's present value of these amounts is within half of
    the last decimal of each factor. Answers the value on the last day."""
    lines = flow_lines(program, book.portfolio(program), book.fixings_table(with_assumed=True))
    write(run(program, "payoff", "book.txt", "--contract", title)[1], "leg.code")
    amounts = [(ql.Date(int(day[8:]), int(day[5:7]), int(day[:4])), amount) for (_, day), amount in sorted(lines.items())]
    paid = [ql.SimpleCashFlow(amount / 100, date) for date, amount in amounts]
    for at in days:
        # The days round a payment have factors of their own, so that a payment on a wrong day is worth something else.
        write(factors(curve, at, [date + step for date, _ in amounts for step in (-1, 0, 1)]), "curve.csv")
        rows = dict(row.split(",") for row in read("curve.csv").splitlines()[1:])
        words = "--at", at.ISO(), "--from", "Desk", "--to", "Bank", "--asset", "EUR"
        status, text, _ = run(program, "value", "leg.code", "table.csv", "curve.csv", *words)
        left = [(date, Fraction(amount, 100)) for date, amount in amounts if date >= at]
        exact = sum(amount * Fraction(rows[str(date - at)]) for date, amount in left)
        own.same(f"QuantLib, {title}, value on {at.ISO()}", (0, exact), (status, Fraction(text.strip() or 0)))
        theirs = ql.CashFlows.npv(paid, ql.YieldTermStructureHandle(curve), True, at, at)
        most = sum(abs(amount) for _, amount in left) * COARSE + Fraction(1, 10 ** 6)
        own.judge(abs(exact - Fraction(theirs)) <= most, f"QuantLib, {title}, on {at.ISO()}: {float(exact)} and {theirs}")
    return exact


def try_day_of_value(own, program):
    """A payment of the day of value counts; with QuantLib only if it is told so."""
    day = ql.Date(1, 7, 2026)
    curve = ql.FlatForward(day, 0.03, ql.Actual365Fixed())
    dates = schedule(ql.Date(1, 7, 2025), ql.Date(1, 7, 2027), "1y", ql.Unadjusted)
    bond = ql.FixedRateBond(0, 1000.0, dates, [0.05], THIRTY)
    bond.setPricingEngine(ql.DiscountingBondEngine(ql.YieldTermStructureHandle(curve)))
    ql.Settings.instance().evaluationDate = day
    worth = []
    for counts in (False, True):
        ql.Settings.instance().includeReferenceDateEvents = counts
        bond.recalculate()
        worth.append(rounded(bond.NPV(), 2))
    ql.Settings.instance().includeReferenceDateEvents = False
    ql.Settings.instance().evaluationDate = ORIGIN
    own.same("QuantLib, the day of value", ["1018.97", "1068.97"], worth)
    book = Book()
    book.contract("bond", (bond.cashflows(), *OUT))
    own.same("the value on the day of a payment", "1068.97", rounded(float(try_values(own, program, "bond", book, curve, [day])), 2))


def try_bounds(own, program, page, dice):
    """The values of a bond and a swap, and how far off a bond of a great nominal is."""
    curve = ql.FlatForward(ORIGIN, 0.03, ql.Actual365Fixed())
    handle = ql.YieldTermStructureHandle(curve)
    bond, (fixed, floating) = some_bond(), some_swap(dice, ql.Euribor3M(handle))
    days = [ORIGIN + 57 * step for step in range(32)] + [flow.date() for flow in bond]
    book = Book()
    book.contract("bond", (bond, *OUT))
    try_values(own, program, "bond", book, curve, days)
    book = Book(rates=12)
    book.contract("swap", (fixed, *OUT), (floating, *BACK))
    try_values(own, program, "swap", book, curve, days)
    for nominal in (1e9, 1e11):
        book, great = Book(), some_bond(nominal)
        book.contract("bond", (great, *OUT))
        value = try_values(own, program, "bond", book, curve, [ORIGIN])
        apart = abs(float(value - Fraction(ql.CashFlows.npv(great, handle, True, ORIGIN, ORIGIN))))
        own.judge(f" {apart:.2f} " in page, f"QuantLib, a bond of {nominal:,.0f} is {apart:.2f} off, which the page does not say")


# ---- What is refused, and the example


def try_refusals(own, index):
    """What has a formula of its own, which no row would pay, is refused."""
    dates = schedule(ql.Date(15, 1, 2026), ql.Date(15, 1, 2028), "1y")
    compounded = ql.OvernightLeg([1e6], dates, ql.Estr(index.forwardingTermStructure()))
    capped = ql.IborLeg([1e6], dates, index, THIRTY, ql.Following, [2], [1.0], [0.0], [0.01])
    pricer = ql.BlackIborCouponPricer()
    volatility = ql.ConstantOptionletVolatility(ORIGIN, ql.TARGET(), ql.Following, 0.2, ql.Actual365Fixed())
    pricer.setCapletVolatility(ql.OptionletVolatilityStructureHandle(volatility))
    ql.setCouponPricer(capped, pricer)
    prices = ql.EUHICPXT()
    for year in (2025, 2026):
        prices.addFixing(ql.Date(1, 1, year), 100.0 + year % 10)
    days = ql.Date(1, 4, 2025), ql.Date(1, 4, 2026), ql.Period("3m"), ql.Date(1, 7, 2026)
    indexed = [ql.ZeroInflationCashFlow(1e6, prices, ql.CPI.Flat, *days)]
    for title, leg in (("compounded", compounded), ("capped", capped), ("indexed", indexed)):
        try:
            Book().contract("leg", (leg, *OUT))
            said = "it is taken"
        except ValueError as fault:
            said = str(fault)
        is_refused = "is not nominal, rate and part of a year" in said or "has an index that is not known here" in said
        own.judge(is_refused, f"QuantLib, a leg that is {title}: {said}")


def try_desk(own, program):
    """The files of the example are those that its script writes, and what is assumed is in none for `advance`."""
    folder = tempfile.mkdtemp(dir=".")
    package = {**os.environ, "PYTHONPATH": os.path.join(bench.TOP, "desk")}
    status, _, said = run(sys.executable, "-B", os.path.join(HERE, "desk.py"), folder=folder, env=package)
    own.same("QuantLib, desk.py", (0, ""), (status, said))
    for name in ("rows.csv", "observed.csv", "assumed.csv", "curve.csv"):
        own.same(f"QuantLib, {name}", read(HERE, name), read(folder, name))
    book = run_desk(program, "rows", os.path.join(HERE, "decls.txt"), os.path.join(HERE, "rows.csv"))
    own.same("QuantLib, book.txt", book, read(HERE, "book.txt"))
    days = {name: [row.split(",")[1] for row in read(HERE, f"{name}.csv").splitlines()[1:]] for name in ("observed", "assumed")}
    is_split = days["observed"] and max(days["observed"]) < ORIGIN.ISO() < max(days["assumed"])
    own.judge(is_split, f"QuantLib, the days of fixings: {days}")
    status, text, _ = run(program, "advance", "book.txt", "observed.csv", "--to", "2026-01-13", folder=HERE)
    own.judge(status == 0 and text.count("obs(Euribor6M") == 4, f"QuantLib: {status}, {text}")


def main():
    own, program = bench.Bench(), sys.argv[1]
    page = read(bench.TOP, "docs", "BESIDE-OTHER-TOOLS.md")
    ql.Settings.instance().evaluationDate = ORIGIN
    handle = ql.YieldTermStructureHandle(ql.FlatForward(ORIGIN, 0.025, ql.Actual365Fixed()))
    indexes = {"1m": ql.Euribor1M(handle), "3m": ql.Euribor3M(handle), "6m": ql.Euribor6M(handle), "1y": ql.Euribor1Y(handle)}
    dice = bench.Dice(1)
    with tempfile.TemporaryDirectory() as room:
        os.chdir(room)
        ql.Settings.instance().evaluationDate = LATER
        try_legs(own, program, dice, indexes["3m"])
        try_options(own, program, dice)
        for title, is_round in (("legs at random", False), ("legs of multiples of 25", True)):
            said = try_cents(own, program, dice, indexes, title, is_round)
            own.judge(said in " ".join(page.split()), f"QuantLib, {title}: {said} are a cent apart, which the page does not say")
        quantlib_terms.try_terms(own, program, run_desk, bench.Dice(1), " ".join(read(bench.TOP, "docs", "DATES.md").split()))
        ql.Settings.instance().evaluationDate = ORIGIN
        try_bounds(own, program, page, dice)
        try_day_of_value(own, program)
        try_refusals(own, indexes["1y"])
        try_desk(own, program)
        quantlib_terms.unit_tests(own, program)
        os.chdir("/")
    own.end()


main()
