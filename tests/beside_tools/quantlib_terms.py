"""The command `terms` beside QuantLib: random trades, whose coupons are those of QuantLib's own legs, each on its date."""

import csv
import io
import json
import os
import re
import sys
from fractions import Fraction

import bench
import QuantLib as ql
from bench import write
from tilugba.terms.legs import plain, rounded

ORIGIN = ql.Date(5, 1, 2026)
LABELS = {"NC": "RN", "MF": "RM", "TARGET": "RT", "UnitedStates.NYSE": "RU"}
CALENDARS = {
    "NC": ql.NullCalendar(),
    "MF": ql.WeekendsOnly(),
    "TARGET": ql.TARGET(),
    "UnitedStates.NYSE": ql.UnitedStates(ql.UnitedStates.NYSE),
}
MOVES = {"F": ql.Following, "MF": ql.ModifiedFollowing, "P": ql.Preceding, "MP": ql.ModifiedPreceding}
ISDA = ql.ActualActual(ql.ActualActual.ISDA)
DECLS = "portfolio 2; amounts 2; origin 2026-01-05; party Desk, Bank; asset EUR, USD;\n"
DECLS += "".join(f"num {name} : 5 in -0.1 .. 0.2;\n" for name in LABELS.values()) + "num USDEUR : 4 in 0.5 .. 2.0;\n"
GRID = [f"0.{cents:02}00" for cents in range(60, 100, 4)] + [f"1.{cents:02}37" for cents in range(0, 60, 6)]


def iso(date):
    return date.ISO()


def nearest(exact):
    """Cents, at the middle the even ones."""
    return round(exact * 100)


class Trade:
    """A random loan: its terms, and what QuantLib says that it pays."""

    def __init__(self, dice, number, kind):
        self.dice, self.kind, self.name = dice, kind, f"{kind.lower()}{number}"
        self.months = dice.one((1, 3, 3, 6, 12))
        self.first = ORIGIN + dice.between(0, 700)
        # Of months that have so many days, so that a period is never cut at the end of a month by one of two rules.
        self.ends = self.first + dice.between(self.months * 31 + 40, 3500)
        self.calendar = dice.one(sorted(CALENDARS))
        self.convention = dice.one(("NULL", *(f"{order}{move}" for order in ("SC", "CS") for move in MOVES)))
        # QuantLib moves the last day to the end of its month too, if days are moved at all.
        self.to_month_end = self.calendar == "NC" and not self.convention.startswith("SC") and dice.chance()
        if self.to_month_end:
            self.first = ql.Date.endOfMonth(self.first)
        self.count = dice.one(("A360", "A365", "30E360", "30E360ISDA", "AA"))
        # Interest of multiples of 25 is often in the middle of two cents.
        self.notional = Fraction(25 * dice.between(1, 40_000)) if dice.chance() else Fraction(dice.between(1, 10**9), 100)
        self.rate = Fraction(dice.between(-50, 900), 10**4)
        self.spread = dice.one((None, Fraction(1, 1000), Fraction(-25, 10**4)))
        self.fixing_days = dice.one((0, 1, 2, 2))
        self.is_long = dice.chance()
        self.anchor = self.first + dice.between(5, self.months * 28) if dice.below(4) == 0 and not self.to_month_end else None
        self.is_floating = kind in ("SWPPV", "CAPFL") or (kind != "ANN" and dice.chance())
        self.anchor = None if kind == "CAPFL" else self.anchor
        self.sign = dice.one((1, -1))
        self.set_kind()

    def set_kind(self):
        dates = len(self.schedule()) - 1
        self.part = Fraction(int(self.notional * 100 / dice_between(self.dice, dates)), 100)
        self.bound = Fraction(self.dice.between(-200, 600), 10**4)
        self.is_cap = self.dice.chance()
        if self.kind == "ANN":
            # What pays the loan back about when it ends.
            self.part = Fraction(int((self.notional / dates + self.notional * self.rate * self.months / 24) * 100) + 1, 100)

    # ---- terms

    def terms(self):
        own = {
            "contractID": self.name,
            "contractType": self.kind,
            "contractRole": {1: "RPA", -1: "RPL"}[self.sign],
            "creatorID": "Desk",
            "counterpartyID": "Bank",
        }
        loan = {
            "currency": "EUR",
            "initialExchangeDate": iso(self.first) + "T00:00:00",
            "maturityDate": iso(self.ends),
            "notionalPrincipal": decimal(self.notional),
            "nominalInterestRate": decimal(self.rate),
            "dayCountConvention": self.count,
            "businessDayConvention": self.convention,
            "calendar": self.calendar,
            "endOfMonthConvention": "EOM" if self.to_month_end else "SD",
        }
        cycle = f"P{self.months}ML{0 if self.is_long else 1}"
        anchor = {"cycleAnchorDateOf": iso(self.anchor)} if self.anchor else {}
        over = lambda name: {f"cycleOf{name}": cycle} | {f"{key}{name}": date for key, date in anchor.items()}
        if self.kind != "ANN":
            loan |= over("InterestPayment")
        if self.kind in ("LAM", "ANN"):
            loan |= over("PrincipalRedemption") | {"nextPrincipalRedemptionPayment": decimal(self.part)}
        if self.is_floating:
            # Without an anchor the rate of the first period is observed too, and else it is the fixed one.
            loan |= over("RateReset") | {"marketObjectCodeOfRateReset": LABELS[self.calendar]}
            loan |= {"nominalInterestRate2": decimal(self.rate)} if self.kind == "SWPPV" and self.anchor else {}
            loan |= {"fixingPeriod": f"P{self.fixing_days}D"}
            loan |= {"rateSpread": decimal(self.spread)} if self.spread is not None else {}
        if self.kind == "SWPPV":
            own["contractRole"] = {1: "RFL", -1: "PFL"}[self.sign]
        if self.kind == "CAPFL":
            own["contractRole"] = {1: "BUY", -1: "SEL"}[self.sign]
            below = {"object": {"contractType": "PAM", **loan}, "referenceType": "CNT", "referenceRole": "UDL"}
            name = "lifeCap" if self.is_cap else "lifeFloor"
            return own | {name: decimal(self.bound), "contractStructure": [below]}
        return own | loan

    # ---- QuantLib

    def schedule(self):
        calendar, move = CALENDARS[self.calendar], ql.Unadjusted
        if self.convention.startswith("SC"):
            move = MOVES[self.convention[2:]]
        first = self.anchor or ql.Date()
        made = lambda *last: ql.Schedule(
            self.first, self.ends, ql.Period(self.months, ql.Months), calendar, move, move,
            ql.DateGeneration.Forward, self.to_month_end, first, *last,
        )  # fmt: skip
        plain_dates = ql.Schedule(
            self.first, self.ends, ql.Period(self.months, ql.Months), ql.NullCalendar(), ql.Unadjusted, ql.Unadjusted,
            ql.DateGeneration.Forward, self.to_month_end, first,
        )  # fmt: skip
        dates = list(plain_dates)
        anchor = self.anchor or self.first
        steps = len(dates) - 1 - (1 if self.anchor else 0)
        regular = ql.NullCalendar().advance(anchor, ql.Period(self.months * steps, ql.Months), ql.Unadjusted, self.to_month_end)
        if self.is_long and regular != self.ends and len(dates) > (3 if self.anchor else 2):
            return made(dates[-3])
        return made()

    def counter(self, schedule):
        last = list(schedule)[-1]
        return {
            "A360": ql.Actual360(),
            "A365": ql.Actual365Fixed(),
            "30E360": ql.Thirty360(ql.Thirty360.European),
            "30E360ISDA": ql.Thirty360(ql.Thirty360.ISDA, last),
            "AA": ISDA,
        }[self.count]

    def part_of_year(self, counter, start, end):
        """The exact quotient."""
        if self.count != "AA":
            return Fraction(counter.dayCount(start, end), 365 if self.count == "A365" else 360)
        part = Fraction(0)
        while start < end:
            until = min(end, ql.Date(1, 1, start.year() + 1))
            part += Fraction(until - start, 366 if ql.Date.isLeap(start.year()) else 365)
            start = until
        return part

    def move(self):
        return MOVES.get(self.convention[2:], ql.Unadjusted) if self.convention != "NULL" else ql.Unadjusted

    def fixed_leg(self, schedule, notionals):
        rates = [float(self.rate)]
        return ql.FixedRateLeg(schedule, self.counter(schedule), [float(it) for it in notionals], rates, self.move())

    def floating_leg(self, schedule, notionals, fixings, **bounds):
        label, calendar = LABELS[self.calendar], CALENDARS[self.calendar]
        name = f"{label}{self.fixing_days}"
        tenor = ql.Period(self.months, ql.Months)
        index = ql.IborIndex(name, tenor, self.fixing_days, ql.EURCurrency(), calendar, ql.Following, False, ql.Actual360())
        spreads = [float(self.spread or 0)]
        leg = ql.IborLeg(
            [float(it) for it in notionals], schedule, index, self.counter(schedule), self.move(),
            [self.fixing_days], [1.0], spreads, **bounds,
        )  # fmt: skip
        ql.setCouponPricer(leg, PRICER)
        for flow in leg:
            date = ql.as_floating_rate_coupon(flow).fixingDate()
            rate = fixings.setdefault((label, iso(date)), Fraction(self.dice.between(-3000, 9000), 10**5))
            index.addFixing(date, float(rate), True)
        return leg

    def coupons(self, fixings):
        """The coupons in the order of rows: (date, exact amount for the creator, QuantLib's double, part of a year, notional)."""
        schedule = self.schedule()
        count = len(schedule) - 1
        if self.kind == "ANN":
            notionals = self.annuity(schedule)
        elif self.kind == "LAM":
            notionals = [max(self.notional - self.part * step, Fraction(0)) for step in range(count)]
        else:
            notionals = [self.notional] * count
        legs = []
        if not self.is_floating or self.kind == "SWPPV":
            legs.append([(flow, self.rate, flow.amount()) for flow in self.fixed_leg(schedule, notionals)])
        if self.is_floating:
            legs.append(self.floating(schedule, notionals, fixings))
        found = []
        for number in range(count):
            for place, leg in enumerate(legs):
                flow, rate, amount = leg[number]
                coupon, sign = ql.as_coupon(flow), self.sign * (1 if place == 0 else -1)
                part = self.part_of_year(self.counter(schedule), coupon.accrualStartDate(), coupon.accrualEndDate())
                found.append((iso(flow.date()), sign * notionals[number] * rate * part, sign * amount, part, notionals[number]))
        return found

    def floating(self, schedule, notionals, fixings):
        """The coupons of a rate that is observed, or what they are above a cap or below a floor."""
        leg = self.floating_leg(schedule, notionals, fixings)
        rates = [self.observed(flow, fixings) + (self.spread or 0) for flow in leg]
        amounts = [flow.amount() for flow in leg]
        if self.kind == "CAPFL":
            bound = {"caps" if self.is_cap else "floors": [float(self.bound)]}
            bounded = [flow.amount() for flow in self.floating_leg(schedule, notionals, fixings, **bound)]
            amounts = [abs(one - other) for one, other in zip(amounts, bounded)]
            rates = [max((rate - self.bound) * (1 if self.is_cap else -1), Fraction(0)) for rate in rates]
        found = list(zip(leg, rates, amounts))
        if self.anchor:
            first = self.fixed_leg(schedule, notionals)[0]
            found[0] = first, self.rate, first.amount()
        return found

    def observed(self, flow, fixings):
        return fixings[LABELS[self.calendar], iso(ql.as_floating_rate_coupon(flow).fixingDate())]

    def annuity(self, schedule):
        """What is owed in each period, where interest is rounded to cents."""
        left, found, dates = self.notional, [], list(schedule)
        for start, end in zip(dates, dates[1:]):
            found.append(max(left, Fraction(0)))
            part = self.part_of_year(self.counter(schedule), start, end)
            left -= self.part - Fraction(nearest(left * self.rate * part), 100)
        return found

    def principal(self, coupons):
        """What is paid out and back: (date, amount for the creator)."""
        if self.kind in ("SWPPV", "CAPFL"):
            return []
        calendar = CALENDARS[self.calendar]
        found = [(iso(calendar.adjust(self.first, self.move())), -self.sign * self.notional)]
        owed = [notional for *_, notional in coupons] + [Fraction(0)]
        for (date, *_), now, then in zip(coupons, owed, owed[1:]):
            if now != then:
                found.append((date, self.sign * (now - then)))
        return found


PRICER = ql.BlackIborCouponPricer()


def dice_between(dice, dates):
    """In how many parts a loan is paid back: as many as it has periods, or fewer, or more."""
    return max(1, dates + dice.between(-3, 2))


def decimal(number):
    return plain(float(number)) if abs(number) < 10**6 else rounded(float(number), 2)


def lines_of(program, book, fixings):
    """The flow lines of a portfolio by contract and date, in cents for the desk."""
    write(book, "terms.txt")
    rows = "".join(f"{label},{date},{decimal(rate)}\n" for (label, date), rate in fixings.items())
    write("label,day,value\n" + rows, "terms.csv")
    status, text, _ = bench.run(program, "flows", "terms.txt", "terms.csv")
    if status:
        return f"status {status}, {text}"
    found = {}
    for line in text.splitlines():
        name, date, payer, *_, amount = line.split(",")
        found[name, date] = int(amount.replace(".", "")) * (1 if payer == "Bank" else -1)
    return found


class Terms:
    """What is tried of the command: how many coupons there are, and how many of QuantLib's have another last cent."""

    def __init__(self, own, program, run_desk, dice):
        self.own, self.program, self.run_desk, self.dice = own, program, run_desk, dice
        self.coupons = self.cents = self.payoffs = 0

    def run(self, *words):
        return self.run_desk(self.program, "terms", "decls.txt", "trades.json", *words)

    def put(self, trades):
        write(DECLS, "decls.txt")
        write(json.dumps(trades), "trades.json")

    def try_kind(self, kind, count):
        """Each coupon of each trade: its date, its notional, and its amount to the cent."""
        trades = [Trade(self.dice, number, kind) for number in range(count)]
        trades = [it for it in trades if kind != "LAM" or it.part > 0]
        self.put([trade.terms() for trade in trades])
        table = self.run("--rows")
        fixings = {}
        rows = list(csv.DictReader(io.StringIO(table)))
        single = table.splitlines()[:1] + [f"r{number}," + line.partition(",")[2] for number, line in enumerate(table.splitlines()[1:])]
        write("\n".join(single) + "\n", "single.csv")
        wanted = {trade.name: trade.coupons(fixings) for trade in trades}
        # Each row for itself, by the command `rows`.
        by_row = lines_of(self.program, self.run_desk(self.program, "rows", "decls.txt", "single.csv"), fixings)
        amounts = {name: amount for (name, _), amount in by_row.items()} if isinstance(by_row, dict) else by_row
        for trade in trades:
            mine = [(f"r{number}", row) for number, row in enumerate(rows) if row["contract"] == trade.name]
            self.compare(trade, mine, amounts, wanted[trade.name])
        self.compare_sums(kind, rows, amounts, fixings)

    def compare(self, trade, rows, amounts, coupons):
        own, title = self.own, f"QuantLib, {trade.name} {json.dumps(trade.terms())}"
        # What is paid back has no interest any more, and a period of no days has none.
        coupons = [it for it in coupons if it[-1] > 0 and it[-2] > 0]
        got = [(row["date"], amounts.get(name, 0)) for name, row in rows if row["notional"]]
        own.same(f"{title}: coupons", [(date, nearest(exact)) for date, exact, *_ in coupons], got)
        notionals = [abs(Fraction(row["notional"])) for _, row in rows if row["notional"]]
        own.same(f"{title}: notionals", [notional for *_, notional in coupons], notionals)
        paid = by_date((row["date"], amounts.get(name, 0)) for name, row in rows if row["amount"])
        own.same(f"{title}: principal", by_date((date, int(it * 100)) for date, it in trade.principal(coupons)), paid)
        for _, exact, double, *_ in coupons:
            self.coupons += 1
            if int(rounded(double, 2).replace(".", "")) != nearest(exact):
                self.cents += 1
                own.judge((exact * 100).denominator == 2, f"{title}: {double} and {float(exact)} are apart, and in no middle of two cents")

    def compare_sums(self, kind, rows, amounts, fixings):
        """What `terms` prints as a portfolio pays on each day what its rows pay together."""
        sums = {}
        for number, row in enumerate(rows):
            key = row["contract"], row["date"]
            sums[key] = sums.get(key, 0) + amounts.get(f"r{number}", 0)
        lines = lines_of(self.program, self.run(), fixings)
        self.own.same(f"QuantLib, {kind}: sums by day", {key: it for key, it in sums.items() if it}, lines)

    # ---- currencies and options

    def try_payoffs(self, count):
        """FXOUT and OPTNS on a grid of rates: the date, and the payoff that QuantLib's own object has."""
        trades, wanted = [], {}
        for number in range(count):
            self.add_payoff(number, trades, wanted)
        self.put(trades)
        book = self.run()
        own = self.own
        for rate in GRID:
            dates = {trade["maturityDate"] for trade in trades}
            lines = lines_of(self.program, book, {("USDEUR", date): Fraction(rate) for date in dates})
            exact = {key: pays(Fraction(rate))[0] for key, pays in wanted.items()}
            own.same(f"QuantLib, payoffs at {rate}", {key: nearest(it) for key, it in exact.items() if nearest(it)}, lines)
            for key, pays in wanted.items():
                double = pays(Fraction(rate))[1]
                self.payoffs += 1
                own.judge(abs(Fraction(double) * 100 - nearest(exact[key])) < Fraction(501, 1000), f"QuantLib, {key} at {rate}: {double}")

    def add_payoff(self, number, trades, wanted):
        dice = self.dice
        sign, calendar, move = dice.one((1, -1)), dice.one(sorted(CALENDARS)), dice.one(("F", "MF"))
        day, later = ORIGIN + dice.between(0, 900), dice.below(3)
        paid = CALENDARS[calendar].adjust(day, MOVES[move])
        # What is moved to a day before the rate is known is refused.
        later = later or (1 if paid < day else 0)
        if later:
            paid = CALENDARS[calendar].advance(day, later, ql.Days)
        notional = Fraction(dice.between(1, 10**8), 100)
        trade = {
            "contractID": f"p{number}", "contractRole": "BUY" if sign > 0 else "SEL", "creatorID": "Desk", "counterpartyID": "Bank",
            "currency": "EUR", "maturityDate": iso(day), "calendar": calendar, "businessDayConvention": f"CS{move}",
            "settlementPeriod": f"P{later}D", "notionalPrincipal": decimal(notional),
        }  # fmt: skip
        if dice.chance():
            second = Fraction(dice.between(1, 10**8), 100)
            trade |= {"contractType": "FXOUT", "currency2": "USD", "notionalPrincipal2": decimal(second), "deliverySettlement": "S"}
            # A forward is a call less a put at its rate.
            call, put = (ql.PlainVanillaPayoff(it, float(notional / second)) for it in (ql.Option.Call, ql.Option.Put))
            forward = lambda rate: (put(float(rate)) - call(float(rate))) * float(second)
            pays = lambda rate: (sign * (notional - rounded_cents(rate * second)), sign * forward(rate))
        else:
            strike, is_call = Fraction(dice.between(6000, 15000), 10**4), dice.chance()
            below = {"object": {"marketObjectCode": "USDEUR"}, "referenceType": "MOC", "referenceRole": "UDL"}
            trade |= {"contractType": "OPTNS", "optionType": "C" if is_call else "P", "optionStrike1": decimal(strike)}
            trade |= {"optionExerciseType": "E", "contractStructure": [below]}
            option = ql.PlainVanillaPayoff(ql.Option.Call if is_call else ql.Option.Put, float(strike))
            way = 1 if is_call else -1
            pays = lambda rate: (sign * max(way * (rate - strike), 0) * notional, sign * option(float(rate)) * float(notional))
        trades.append(trade)
        wanted[trade["contractID"], iso(paid)] = pays


def by_date(paid):
    """The sums of a date: two days of a cycle may be moved to one."""
    sums = {}
    for date, amount in paid:
        sums[date] = sums.get(date, 0) + amount
    return sums


def rounded_cents(number):
    return Fraction(nearest(number), 100)


def try_terms(own, program, run_desk, dice, page, count=60):
    terms = Terms(own, program, run_desk, dice)
    for kind in ("PAM", "LAM", "ANN", "SWPPV", "CAPFL"):
        terms.try_kind(kind, count)
    terms.try_payoffs(count)
    said = f"{terms.cents} of {terms.coupons:,}"
    own.judge(said in page, f"QuantLib, terms: {said} are a cent apart, which the page does not say")
    return said


def unit_tests(own, program):
    """The tests of the command that want QuantLib, by this Python, which has it."""
    words = sys.executable, "-B", "-m", "unittest", "tests.test_terms"
    environment = {**os.environ, "TILUGBA": program}
    _, _, said = bench.run(*words, folder=os.path.join(bench.TOP, "desk"), env=environment)
    found = re.search(r"^Ran (\d+) tests in [^\n]*\n\nOK$", said.rstrip(), re.M)
    own.judge(found is not None and int(found[1]) > 9, f"QuantLib, the tests of terms: {said}")
