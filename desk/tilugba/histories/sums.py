"""The lines of a history: by contract, or added up by pair or by party. Sums are exact, with the
decimals of the values.
"""

from __future__ import annotations

from collections.abc import Iterable, Iterator
from decimal import Decimal
from itertools import groupby
from operator import attrgetter

from .. import decimals
from .deals import Book, Pair
from .valuing import Worth

EACH = "*"
BY_CONTRACT = ("day", "contract", "payer", "receiver", "asset", "value")
BY_PARTY = ("day", "party", "asset", "value")
Row = list[str]


def by_contract(book: Book, worth: Iterable[Worth]) -> Iterator[Row]:
    """A row for each value."""
    yield list(BY_CONTRACT)
    for it in worth:
        yield [book.calendar.text(it.day), it.deal.name, *names(book, it.pair), it.value]


def names(book: Book, pair: Pair) -> tuple[str, str, str]:
    return book.parties[pair.payer], book.parties[pair.receiver], book.assets[pair.asset]


def by_pair(book: Book, worth: Iterable[Worth]) -> Iterator[Row]:
    """A row for each day and pair, over all contracts."""
    yield list(BY_CONTRACT)
    for day, values in groupby(worth, attrgetter("day")):
        sums = sums_of((it.pair, Decimal(it.value)) for it in values)
        for pair in sorted(sums):
            yield [book.calendar.text(day), EACH, *names(book, pair), decimals.text(sums[pair])]


def by_party(book: Book, worth: Iterable[Worth]) -> Iterator[Row]:
    """A row for each day, party and asset: what the party is to get, less what it is to pay."""
    yield list(BY_PARTY)
    for day, values in groupby(worth, attrgetter("day")):
        sums = sums_of(part for it in values for part in parts(it))
        for party, asset in sorted(sums):
            told = decimals.text(sums[party, asset])
            yield [book.calendar.text(day), book.parties[party], book.assets[asset], told]


def parts(it: Worth) -> Iterator[tuple[tuple[int, int], Decimal]]:
    """What a value is to the payer and to the receiver."""
    value, pair = Decimal(it.value), it.pair
    yield (pair.payer, pair.asset), value.copy_negate()
    yield (pair.receiver, pair.asset), value


def sums_of(amounts: Iterable[tuple[object, Decimal]]) -> dict:
    """The exact sum of the amounts of each key."""
    sums: dict = {}
    for key, amount in amounts:
        sums[key] = decimals.added(sums[key], amount) if key in sums else amount
    return sums


LINES = {"contract": by_contract, "pair": by_pair, "party": by_party}
