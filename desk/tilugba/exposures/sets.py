"""A table of scenarios, and the calls of `scenarios` over it. A contract gets the rows that it
can read.

Scenarios that are the same to a contract are asked as one: their values are the same.
"""

from __future__ import annotations

from collections.abc import Iterable, Iterator, Mapping, Sequence
from dataclasses import dataclass

from ..answer_rows import read_as, scenarios_of
from ..days import Calendar, day_of
from ..engines import Engine
from ..histories.asked import Asked, Coded, Days
from ..histories.deals import Book, Deal, Stretches
from ..histories.rates import Curves
from ..program import Answer, Status, Stop
from ..tables import SCENARIOS, records
from .held import Held, History, mantissa

EACH = b"*"
HEADER = (",".join(SCENARIOS) + "\n").encode()
# Beyond what amounts have.
DECIMALS_OF_FACTORS = 9


@dataclass(frozen=True)
class Row:
    """What a scenario says of a label on a day."""

    label: str
    day: int
    value: str

    def line(self, scenario: str) -> str:
        return f"{scenario},{self.label},{self.day},{self.value}\n"


@dataclass(frozen=True)
class Part:
    """A table of scenarios that differ for a contract, and for each scenario of the set the
    place of its like.
    """

    data: bytes
    like: list[int]


class Scenarios:
    """A table of scenarios that the program has taken."""

    def __init__(self, data: bytes, calendar: Calendar) -> None:
        self.data = data
        self.each: list[Row] = []
        self.own: dict[str, list[Row]] = {}
        for record in list(records(data))[1:]:
            name, label, written, value = record.texts
            day = day_of(written)
            number = None if day is None else calendar.number(day)
            if number is None:
                raise Stop(Status.ROW, f"record {record.number} has no day: {written}")
            rows = self.each if record.fields[0] == EACH else self.own.setdefault(name, [])
            rows.append(Row(label, number, value))

    @property
    def names(self) -> list[str]:
        return list(self.own)

    def part(self, reads: Mapping[str, Stretches]) -> Part:
        """The scenarios that differ in what these reads may find."""
        lines = [row.line("*") for row in relevant(self.each, reads)]
        places: dict[tuple[Row, ...], int] = {}
        like: list[int] = []
        for name, own in self.own.items():
            rows = tuple(relevant(own, reads))
            if rows not in places:
                places[rows] = len(places)
                # A scenario is there by a row of its own, of whatever label.
                lines += [row.line(name) for row in rows or own[:1]]
            like.append(places[rows])
        return Part(HEADER + "".join(lines).encode(), like)


def relevant(rows: Iterable[Row], reads: Mapping[str, Stretches]) -> Iterator[Row]:
    """The rows that may be read."""
    for row in rows:
        if any(first <= row.day <= last for first, last in reads.get(row.label, ())):
            yield row


class OverSet(Asked):
    """A book over a set of scenarios."""

    command = "scenarios"
    scenarios: Scenarios

    def __init__(
        self,
        book: Book,
        deals: Sequence[Coded],
        curves: Curves,
        days: Days,
        engine: Engine,
        mode: str,
    ) -> None:
        super().__init__(book, deals, curves, days, engine)
        self.mode = mode
        self.parts: dict[str, Part] = {}

    def take_table(self, data: bytes) -> None:
        super().take_table(data)
        self.scenarios = Scenarios(data, self.book.calendar)

    def words_of(self, payer: str, receiver: str, asset: str, day: int) -> tuple[str, ...]:
        return (*super().words_of(payer, receiver, asset, day), f"--mean={self.mode}")

    def part(self, deal: Deal) -> Part:
        if deal.name not in self.parts:
            self.parts[deal.name] = self.scenarios.part(deal.reads)
        return self.parts[deal.name]

    def table(self, deal: Deal, day: int) -> bytes:
        return self.part(deal).data

    def whole(self, day: int) -> bytes:
        return self.scenarios.data

    @property
    def places_of_values(self) -> int:
        return self.book.labels.amounts + DECIMALS_OF_FACTORS

    def history(self, answers: Iterable[Answer]) -> History:
        """The values of all calls, day by day, in each scenario."""
        days = {day: Held(self.book.calendar.text(day)) for day in self.days}
        for place, answer in zip(self.places(), answers):
            pair = place.pair
            sides = self.book.parties[pair.payer], self.book.parties[pair.receiver]
            values = self.values(place.it.deal, *self.settled(place, answer))
            days[place.day].add((*sides, self.book.assets[pair.asset]), values)
        names = list(self.book.parties), list(self.book.assets)
        return History(list(days.values()), self.places_of_values, *names, True)

    def values(self, deal: Deal, told: str, is_whole: bool) -> list[int]:
        """The value in each scenario of the set."""
        found = read_as(scenarios_of, told).values
        values = [mantissa(f"{it.value:f}", self.places_of_values) for it in found]
        return values if is_whole else [values[place] for place in self.part(deal).like]
