"""Random books, with the flow lines that they must have: reckoned here by whole numbers, from what made the books."""

from datetime import date, timedelta
from fractions import Fraction

PARTIES = ("Desk", "Bank", "Client", "Fund")
ASSETS = ("EUR", "USD", "JPY")
ORIGIN = date(2026, 1, 5)
DAYS = 130
HEAD = f"""portfolio 1;
amounts 2;
origin {ORIGIN};
party {', '.join(PARTIES)};
asset {', '.join(ASSETS)};
num FX : 4 in 0.5000 .. 2.0000;
num Rate : 5 in -0.02000 .. 0.15000;

"""


def decimal(number, places):
    digits = str(abs(number)).rjust(places + 1, "0")
    return ("-" if number < 0 else "") + (digits[:-places] + "." + digits[-places:] if places else digits)


class Market:
    """Rates as whole numbers, on each day."""

    def __init__(self, dice):
        self.fx = [dice.between(8000, 11000) for _ in range(DAYS)]
        self.rate = [dice.between(-500, 9000) for _ in range(DAYS)]

    def table(self, until=DAYS, origin=ORIGIN):
        rows = ["label,day,value\n"]
        for day in range(until):
            rows.append(f"FX,{day_text(day, origin)},{decimal(self.fx[day], 4)}\n")
            rows.append(f"Rate,{day_text(day, origin)},{decimal(self.rate[day], 5)}\n")
        return "".join(rows)


def day_text(day, origin=ORIGIN):
    return str(origin + timedelta(day)) if origin else str(day)


def pays(cents, way):
    return f"scale({decimal(cents, 2)}, pay({', '.join(way)}))"


def loan(dice, market, way):
    """Paid out on some day, and back in two parts."""
    asset, payer, receiver = way
    start, one, two = dice.below(20), dice.between(1, 40), dice.between(1, 40)
    out, back, last = (dice.between(1, 10_000_000) for _ in range(3))
    again = asset, receiver, payer
    text = f"after({start}, both({pays(out, way)}, after({one}, both({pays(back, again)}, after({two}, {pays(last, again)})))))"
    return text, [(start, way, out), (start + one, again, back), (start + one + two, again, last)]


def floater(dice, market, way):
    """Interest by a rate that is fixed first and paid later; a rate below 0 is paid the other way."""
    start, term, nominal = dice.below(40), dice.between(0, 60), dice.between(1, 2_000_000)
    amount = f"round(half_even, 2, (rate * {nominal}))"
    text = f"after({start}, let rate = obs(Rate, 0) in after({term}, scale({amount}, pay({', '.join(way)}))))"
    return text, [(start + term, way, round(Fraction(market.rate[start] * nominal, 1000)))]


def option(dice, market, way):
    expiry, strike, nominal = dice.below(100), dice.between(8500, 10500), dice.between(1, 100_000)
    amount = f"round(half_even, 2, (max((obs(FX, 0) - {decimal(strike, 4)}), 0) * {nominal}))"
    text = f"after({expiry}, scale({amount}, pay({', '.join(way)})))"
    return text, [(expiry, way, round(Fraction(max(market.fx[expiry] - strike, 0) * nominal, 100)))]


def touch(dice, market, way):
    """Pays on the first day of a window on which the rate is low, or another amount on the last day."""
    barrier, days = dice.between(7900, 8300), dice.below(60)
    touched, other = dice.between(1, 1_000_000), dice.between(1, 1_000_000)
    text = f"if (obs(FX, 0) <= {decimal(barrier, 4)}) within {days} then {pays(touched, way)} else {pays(other, way)}"
    hit = next((day for day in range(days + 1) if market.fx[day] <= barrier), None)
    return text, [(days, way, other) if hit is None else (hit, way, touched)]


def swap(dice, market, way):
    """Two legs on one day, of which the difference flows, or nothing."""
    term, nominal, fixed = dice.below(90), dice.between(1, 900_000), dice.between(0, 8000)
    asset, payer, receiver = way
    rate = market.rate[0] if dice.below(4) else fixed
    legs = [(f"scale(round(half_even, 2, (rate * {nominal})), pay({', '.join(way)}))", market.rate[0]),
            (f"scale(round(half_even, 2, ({decimal(rate, 5)} * {nominal})), pay({asset}, {receiver}, {payer}))", -rate)]
    text = f"let rate = obs(Rate, 0) in after({term}, both({legs[0][0]}, {legs[1][0]}))"
    return text, [(term, way, sum(round(Fraction(own * nominal, 1000)) for _, own in legs))]


def lines_of(paid):
    """The flow lines of one contract: between two parties, on a day, in an asset, what is left of what flows either way."""
    sums = {}
    for day, (asset, payer, receiver), cents in paid:
        one, other = PARTIES.index(payer), PARTIES.index(receiver)
        key = day, ASSETS.index(asset), min(one, other), max(one, other)
        sums[key] = sums.get(key, 0) + (cents if one < other else -cents)
    for (day, asset, one, other), cents in sorted(sums.items()):
        if cents:
            payer, receiver = (one, other) if cents > 0 else (other, one)
            yield day, PARTIES[payer], PARTIES[receiver], ASSETS[asset], abs(cents)


class Book:
    """The text of a book, and its payments: (name, day, payer, receiver, asset, cents)."""

    def __init__(self, dice, market, count, prefix="c"):
        texts, self.paid = [HEAD], []
        for number in range(count):
            payer = dice.below(len(PARTIES))
            receiver = (payer + dice.between(1, len(PARTIES) - 1)) % len(PARTIES)
            way = dice.one(ASSETS), PARTIES[payer], PARTIES[receiver]
            text, paid = dice.one((loan, floater, option, touch, swap))(dice, market, way)
            texts.append(f"contract {prefix}{number} = {text};\n")
            self.paid += [(f"{prefix}{number}", *line) for line in lines_of(paid)]
        self.text = "".join(texts)

    def without_origin(self):
        return self.text.replace(f"origin {ORIGIN};\n", "")

    def lines(self, until=DAYS, origin=ORIGIN):
        return "".join(f"{name},{day_text(day, origin)},{payer},{receiver},{asset},{decimal(cents, 2)}\n"
                       for name, day, payer, receiver, asset, cents in self.paid if day < until)
