"""Values of pairs on a day, counted in the last decimal. A history has one course of the rates,
a set has a value for each scenario.
"""

from __future__ import annotations

from collections.abc import Iterable, Iterator, Mapping, Sequence
from dataclasses import dataclass, field
from decimal import Decimal
from itertools import groupby
from pathlib import Path

from .. import decimals, tables
from ..histories.sums import BY_CONTRACT, EACH
from ..lines import VALUE
from ..program import Status, Stop
from ..tables import Record

# The payer, the receiver and the asset.
Sides = tuple[str, str, str]
# What a contract is worth in each scenario.
Values = Sequence[int]


@dataclass
class Held:
    """A day: the values of each pair, a row for each contract."""

    day: str
    values: dict[Sides, list[Values]] = field(default_factory=dict)

    def add(self, sides: Sides, values: Values) -> None:
        self.values.setdefault(sides, []).append(values)


@dataclass(frozen=True)
class History:
    """The days of a history, the decimals of its values, its parties and assets in order, and
    whether contracts are apart.
    """

    days: list[Held]
    places: int
    parties: list[str]
    assets: list[str]
    is_by_contract: bool


def mantissa(text: str, places: int) -> int:
    """A value of so many decimals, counted in the last of them."""
    return int(decimals.EXACT.scaleb(Decimal(text), places))


def read_history(path: Path) -> History:
    """A table as `history` prints it by contract or by pair."""
    records = tables.read(path, BY_CONTRACT)
    for record in records:
        refuse_bad(path, record)
    rows = [record.texts for record in records]
    places = max((decimals.decimals_of(Decimal(row[5])) for row in rows), default=0)
    days = [held_of(day, those, places) for day, those in groupby(rows, lambda row: row[0])]
    if len({it.day for it in days}) < len(days):
        raise Stop(Status.ROW, f"{path}: a day is in two places")
    names = {row[1] for row in rows}
    if EACH in names and len(names) > 1:
        raise Stop(Status.ROW, f"{path}: it has rows of contracts and rows by pair")
    return History(days, places, *names_in(rows), EACH not in names)


def refuse_bad(path: Path, record: Record) -> None:
    day, contract, payer, receiver, asset, value = record.texts
    names = (payer, receiver, asset, *([] if contract == EACH else [contract]))
    is_right = VALUE.fullmatch(value) and all(tables.NAME.fullmatch(it) for it in names) and day
    if not is_right or payer == receiver:
        raise Stop(Status.ROW, f"{path}: record {record.number} is no row of a history")


def held_of(day: str, rows: Iterable[Sequence[str]], places: int) -> Held:
    held = Held(day)
    for _, _, payer, receiver, asset, value in rows:
        held.add((payer, receiver, asset), [mantissa(value, places)])
    return held


def names_in(rows: Sequence[Sequence[str]]) -> Iterator[list[str]]:
    """The parties and the assets of the rows. The order is that of a book's declarations as far
    as rows tell it: a payer is before its receiver.
    """
    yield ordered([(row[2], row[3]) for row in rows])
    yield list(dict.fromkeys(row[4] for row in rows))


def ordered(pairs: Sequence[tuple[str, str]]) -> list[str]:
    """Names in an order in which the first of each pair is before the second; if there is none,
    as they come.
    """
    behind: dict[str, set[str]] = {}
    for first, second in pairs:
        behind.setdefault(first, set())
        behind.setdefault(second, set()).add(first)
    found: list[str] = []
    while behind:
        name = next((it for it, before in behind.items() if not before), next(iter(behind)))
        found.append(name)
        del behind[name]
        for before in behind.values():
            before.discard(name)
    return found


def positive(values: Values) -> list[int]:
    """The part of each value that is above 0."""
    return [max(it, 0) for it in values]


def negative(values: Values) -> list[int]:
    """What each value is below 0, as a number above it."""
    return [max(-it, 0) for it in values]


def summed(rows: Iterable[Values]) -> list[int]:
    """The sum of rows, scenario by scenario."""
    return [sum(column) for column in zip(*rows)]


def kept(values: Mapping[Sides, list[Values]], party: str | None) -> dict[Sides, list[Values]]:
    """The pairs of a party, or all."""
    return {sides: rows for sides, rows in values.items() if party is None or party in sides[:2]}
