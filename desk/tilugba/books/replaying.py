"""What a corrected table changes in a kept book: its steps, done anew from where they differ.

`advance` puts each row of its table into the contracts for good, those of later days and of days
looked back at too. So a book may stay only if no table that led to it has a row that the corrected
one does not have. From there on each step is done once more, with the rows that its own table had,
as they are now, and all rows of the days before its own.
"""

from __future__ import annotations

from collections.abc import Iterator, Mapping
from dataclasses import dataclass, replace
from decimal import Decimal

from ..days import Calendar, day_of
from ..program import Program, Status, Stop
from ..tables import Record, records
from .book import Book, File, Told, book_of
from .events import happens
from .flow_lines import Differences, differences
from .folder import Kept, Step
from .moving import ended, judged

Place = tuple[str, int]


@dataclass(frozen=True)
class Correction:
    """The steps that are made anew, and the lines that are gone from what was booked, or new."""

    steps: tuple[Step, ...] = ()
    lines: Differences = Differences((), ())


@dataclass(frozen=True)
class Rows:
    """The records of a table that has no fault, by their places."""

    header: Record
    records: tuple[tuple[Place, Record], ...]
    values: Mapping[Place, Decimal | str]

    def some(self, name: str, labels: set[str], before: int, places: set[Place]) -> File:
        """The table of those rows whose labels are known, and that are of a day before this one or
        of one of these places.
        """
        kept = (
            it.data
            for place, it in self.records
            if place[0] in labels and (place[1] < before or place in places)
        )
        return File(name, b"".join(map(ended, (self.header.data, *kept))))


def rows_of(table: File, calendar: Calendar) -> Rows:
    header, *rows = records(table.data)
    placed = tuple((place_of(table, it, calendar), it) for it in rows)
    return Rows(header, placed, {place: value_of(it.texts[2]) for place, it in placed})


def place_of(table: File, record: Record, calendar: Calendar) -> Place:
    day = day_of(record.texts[1]) if len(record.fields) == 3 else None
    number = calendar.number(day) if day else None
    if number is None:
        raise Stop(Status.ROW, f"{table.name}: record {record.number} is not LABEL,DAY,VALUE")
    return record.texts[0], number


def value_of(text: str) -> Decimal | str:
    """A value, so that those that mean the same are the same: 1.1 and 1.1000."""
    return text if text in ("true", "false") else Decimal(text)


def corrected(program: Program, kept: Kept, table: File) -> Correction:
    """What a corrected table changes in the steps of a folder, and in what was booked of them."""
    today = kept.book()
    new = rows_of(judged(program, table, today), today.calendar)
    first = next(
        (place for place, it in enumerate(kept.steps) if differs(it, new, today.calendar)), None
    )
    if first is None:
        return Correction()
    before, old = kept.steps[first - 1], kept.steps[first:]
    steps = tuple(replayed(program, before, old, new, table.name))
    lines = differences(*((line for it in some for line in it.due) for some in (old, steps)))
    return Correction(steps, lines)


def differs(step: Step, new: Rows, calendar: Calendar) -> bool:
    """Whether a step was made with a row that the new table has not."""
    if step.table is None:
        return False
    return any(
        new.values.get(place) != value
        for place, value in rows_of(step.table, calendar).values.items()
    )


def replayed(
    program: Program, before: Step, steps: tuple[Step, ...], new: Rows, name: str
) -> Iterator[Step]:
    """The steps once more, from the book before them on."""
    book = book_of(before.book)
    for step in steps:
        book, again = replayed_step(program, book, step, new, name)
        yield again


def replayed_step(
    program: Program, book: Book, step: Step, new: Rows, name: str
) -> tuple[Book, Step]:
    """A step once more. One that does not apply any more ends the command, by number and words."""
    table = table_for(book, step, new, name)
    try:
        changed = happens(program, book, step.event, table)
    except Told as told:
        raise Told(
            told.status,
            [f"step {step.number:04}, {step.event}: it does not apply any more", *told.lines],
        ) from told
    except Stop as stop:
        said = f"step {step.number:04}, {step.event}: it does not apply any more: {stop.message}"
        raise Stop(stop.status, said) from stop
    data = changed.book.file.data
    again = replace(step, table=table, due=changed.due, book=replace(step.book, data=data))
    return changed.book.renamed(step.book.name), again


def table_for(book: Book, step: Step, new: Rows, name: str) -> File | None:
    """The rows of the new table that a step takes: those of the days before its own, and those of
    the places of its first table.
    """
    if not step.event.takes_table:
        return None
    other = step.event.other_book()
    labels = book.labels | (other.labels if other else set())
    first = step.event.table
    places = set(rows_of(first, book.calendar).values) if first else set()
    return new.some(name, labels, step.day(), places)
