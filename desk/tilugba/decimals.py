"""Exact decimals of lines. They are added and compared as they are written; one sum is divided by a
count, by a stated mode.
"""

from __future__ import annotations

from collections.abc import Iterable
from decimal import MAX_EMAX, MAX_PREC, MIN_EMIN, Context, Decimal, Inexact

from .texts.grammar import MODES

# No sum of lines is rounded, however long they are.
EXACT = Context(prec=MAX_PREC, Emax=MAX_EMAX, Emin=MIN_EMIN, traps=[Inexact])
HALF_EVEN, HALF_AWAY, FLOOR, CEIL = MODES


def decimals_of(number: Decimal) -> int:
    """How many decimals it is written with."""
    return -int(number.as_tuple().exponent)


def added(one: Decimal, other: Decimal) -> Decimal:
    return EXACT.add(one, other)


def total(numbers: Iterable[Decimal]) -> Decimal:
    """The sum, with as many decimals as one of them has at most."""
    found = Decimal(0)
    for number in numbers:
        found = added(found, number)
    return found


def mean(sum_of_all: Decimal, count: int, mode: str) -> Decimal:
    """The sum over the count, rounded once to the decimals of the sum."""
    places = decimals_of(sum_of_all)
    return Decimal(quotient(int(EXACT.scaleb(sum_of_all, places)), count, mode)).scaleb(
        -places, EXACT
    )


def quotient(top: int, below: int, mode: str) -> int:
    """The whole number that the mode picks for top over below, which is above 0."""
    down, rest = divmod(top, below)
    if rest == 0 or mode == FLOOR:
        return down
    if mode == CEIL or 2 * rest > below:
        return down + 1
    if 2 * rest < below:
        return down
    if mode == HALF_EVEN:
        return down + down % 2
    return down + 1 if top > 0 else down


def text(number: Decimal) -> str:
    """The number as it is printed: without an exponent, and 0 without a sign."""
    return f"{number if number else abs(number):f}"
