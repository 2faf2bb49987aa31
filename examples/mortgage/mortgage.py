"""A mortgage with one payment a month as a portfolio: python3 mortgage.py PRINCIPAL RATE MONTHS DATE > mortgage.txt

RATE is the rate of a year in percent, of which a twelfth is paid each month on what is owed. All payments are alike except for the
last, which pays what is left. Each is on the day of DATE in its month, or on the last day of a month that is shorter. If banks are closed
on that day, it is on the next one on which they are open (the convention "following", by the calendar of TARGET).
"""

import calendar
import datetime
import sys
from decimal import ROUND_HALF_EVEN, Decimal


def cents(amount):
    return amount.quantize(Decimal("0.01"), ROUND_HALF_EVEN)


def payments(principal, rate, months):
    """What is paid month by month, at the rate of a month."""
    level = cents(principal * rate / (1 - (1 + rate) ** -months) if rate else principal / months)
    owed = principal
    for _ in range(months - 1):
        yield level
        owed += cents(owed * rate) - level
    yield owed + cents(owed * rate)


def easter(year):
    """Easter Sunday (Gauss's rule, as it holds from 1900 to 2099)."""
    moon = (19 * (year % 19) + 24) % 30
    days = moon + (2 * (year % 4) + 4 * (year % 7) + 6 * moon + 5) % 7
    days -= 7 if days == 35 or (days == 34 and moon == 28 and year % 19 > 10) else 0
    return datetime.date(year, 3, 22) + datetime.timedelta(days)


def is_closed(day):
    """Whether the day is a weekend or a holiday of TARGET."""
    fixed = (day.month, day.day) in ((1, 1), (5, 1), (12, 25), (12, 26))
    return day.weekday() > 4 or fixed or (day - easter(day.year)).days in (-2, 1)


def days_to(first, months):
    """The days from a date to the same day so many months later, or to the next day on which banks are open."""
    year, month = divmod(first.year * 12 + first.month - 1 + months, 12)
    last = calendar.monthrange(year, month + 1)[1]
    day = datetime.date(year, month + 1, min(first.day, last))
    while is_closed(day):
        day += datetime.timedelta(1)
    return (day - first).days


def balanced(contracts):
    """All of them as a tree of `both` that is as low as can be: a text may have 200 levels, and a chain has one for each payment."""
    if len(contracts) == 1:
        return contracts[0]
    middle = len(contracts) // 2
    return f"both({balanced(contracts[:middle])}, {balanced(contracts[middle:])})"


def main(principal, rate, months, first):
    first = datetime.date.fromisoformat(first)
    paid = payments(Decimal(principal), Decimal(rate) / 1200, int(months))
    parts = [f"scale({cents(Decimal(principal))}, pay(EUR, Bank, Owner))"]
    parts += [f"after({days_to(first, month)}, scale({amount}, pay(EUR, Owner, Bank)))" for month, amount in enumerate(paid, 1)]
    print(f"portfolio 1;\namounts 2;\norigin {first};\nparty Bank, Owner;\nasset EUR;\n\ncontract mortgage = {balanced(parts)};")


if len(sys.argv) != 5:
    sys.exit(__doc__.splitlines()[0])
main(*sys.argv[1:])
