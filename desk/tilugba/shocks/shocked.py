"""The rows of a set of scenarios: those that hold in each, and those that a scenario moves."""

from __future__ import annotations

from collections.abc import Iterable, Iterator, Sequence
from dataclasses import dataclass
from fractions import Fraction

from ..decimals import quotient
from ..histories.deals import Book
from ..program import Status, Stop
from ..tables import Record, records
from ..texts.names import Declared, NameSet
from ..texts.offers import number_told
from ..days import day_of
from .moves import Scenario

EACH = "*"
LONGEST_NAME = 64
BASE = "base"


@dataclass(frozen=True)
class Row:
    """A row of fixings: its label, its day as it is written and as a number, its value."""

    label: str
    written: str
    day: int
    value: str


def rows_of(book: Book, data: bytes) -> list[Row]:
    """The rows of a table of fixings that the program has taken; of a place with several the
    first.
    """
    found: dict[tuple[str, int], Row] = {}
    for record in list(records(data))[1:]:
        row = row_of(book, record)
        found.setdefault((row.label, row.day), row)
    return list(found.values())


def row_of(book: Book, record: Record) -> Row:
    label, written, value = record.texts
    day = day_of(written)
    number = None if day is None else book.calendar.number(day)
    if number is None:
        raise Stop(Status.ROW, f"record {record.number} has no day: {written}")
    return Row(label, written, number, value)


def label_of(book: Book, name: str) -> Declared:
    """A declared label that is a number."""
    label = book.labels.names(NameSet.LABEL).get(name)
    if label is None:
        raise Stop(
            Status.UNKNOWN, f"there is no label {name}; labels: {', '.join(book.labels.numbers())}"
        )
    if label.is_flag:
        raise Stop(Status.UNKNOWN, f"{name} is a flag, and only numbers are moved")
    return label


def checked(scenarios: Iterable[Scenario], has_base: bool) -> list[Scenario]:
    """The scenarios, each with a name of its own that the program takes."""
    found = [*([Scenario(BASE, {})] if has_base else []), *scenarios]
    names = set[str]()
    for it in found:
        if len(it.name) > LONGEST_NAME:
            raise Stop(Status.USAGE, f"{it.name} is longer than a name may be")
        if it.name in names:
            raise Stop(Status.USAGE, f"two scenarios have the name {it.name}")
        names.add(it.name)
    return found


@dataclass(frozen=True)
class Shocked:
    """A book and its rows, of which those from a day on are moved, with a mode for the rounding."""

    book: Book
    rows: Sequence[Row]
    first: int
    mode: str

    def lines(self, scenarios: Sequence[Scenario]) -> Iterator[list[str]]:
        """The rows of the set: what holds in each scenario, and then what each moves."""
        labels = dict.fromkeys(label for it in scenarios for label in it.steps)
        declared = {label: label_of(self.book, label) for label in labels}
        moved = [it for it in self.rows if it.label in declared and it.day >= self.first]
        self.refuse_without_rows(declared, moved)
        yield ["scenario", "label", "day", "value"]
        for row in self.rows:
            if row.label not in declared or row.day < self.first:
                yield [EACH, row.label, row.written, row.value]
        for scenario in scenarios:
            for row in moved:
                value = self.value(scenario, row, declared[row.label])
                yield [scenario.name, row.label, row.written, value]

    def refuse_without_rows(self, declared: Iterable[str], moved: Sequence[Row]) -> None:
        has_rows = {it.label for it in moved}
        for label in declared:
            if label not in has_rows:
                day = self.book.calendar.text(self.first)
                raise Stop(Status.ROW, f"the table has no row of {label} from {day} on")

    def value(self, scenario: Scenario, row: Row, label: Declared) -> str:
        """The value of a row in a scenario, rounded once."""
        step = scenario.steps.get(row.label)
        if step is None:
            return row.value
        scale = 10 ** (label.decimals or 0)
        exact = step.moved(Fraction(row.value)) * scale
        mantissa = quotient(exact.numerator, exact.denominator, self.mode)
        written = number_told(mantissa, label.decimals or 0)
        if not (label.low or 0) <= mantissa <= (label.high or 0):
            bounds = (
                number_told(it or 0, label.decimals or 0) for it in (label.low, label.high)
            )
            place = f"{row.label} on {row.written} would be {written}"
            raise Stop(
                Status.ROW, f"{scenario.name}: {place}, and is declared from {' to '.join(bounds)}"
            )
        return written
