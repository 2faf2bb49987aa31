"""Tables: fixings, curves, sets of scenarios. They are read as the program reads them, kept byte
for byte, and written.

`read` has the records of any table. `rows_by_label` has fixings by label and day, for commands that
go through days.
"""

from __future__ import annotations

import re
from collections.abc import Collection, Iterable, Iterator
from pathlib import Path
from typing import NamedTuple

from .days import Day, day_of
from .files import read_file
from .program import Status, Stop

FIXINGS = ("label", "day", "value")
CURVE = ("offset", "factor")
SCENARIOS = ("scenario", "label", "day", "value")
NAME = re.compile(r"[A-Za-z_][A-Za-z0-9_]*")
VALUE = re.compile(r"-?[0-9]+(?:[.][0-9]+)?|true|false")

MARK = b"\xef\xbb\xbf"
# The end of a record, and what stands between commas without quotes.
END = re.compile(rb"\r\n?|\n|\Z")
UNQUOTED = re.compile(rb"[^,\r\n]*")
LINE_ENDS = re.compile(rb"[\r\n]*")
PLAIN = re.compile(rb'([^",\r\n]*(?:,[^",\r\n]*)*)(?:\r\n?|\n|\Z)')
LINE_END = re.compile(rb"\r\n?|\n")
# A record, whatever its fields say, with the line ends behind it.
FIELD = rb'(?:"(?:[^"]++|"")*+(?:"[^,\r\n]*+)?|(?!")[^,\r\n]*+)'
RECORD = re.compile(rb"(?!\Z)" + FIELD + rb"(?:," + FIELD + rb")*+[\r\n]*+")


class Record(NamedTuple):
    """A record: its number from 1 on with the header, the line on which it begins, its fields, and
    its bytes with the line end.
    """

    number: int
    line: int
    fields: tuple[bytes, ...]
    data: bytes

    @property
    def texts(self) -> tuple[str, ...]:
        return tuple(field.decode("utf-8", "replace") for field in self.fields)


def records(data: bytes) -> Iterator[Record]:
    """The records of a table, whatever they say. A line without a byte is none, and a byte order
    mark is passed over.
    """
    at = first_at(data)
    line, counted, number = 1, 0, 0
    while at < len(data):
        number += 1
        line += len(LINE_END.findall(data, counted, at))
        counted = at
        fields, end = record_at(data, at)
        yield Record(number, line, tuple(fields), data[at:end])
        at = LINE_ENDS.match(data, end).end()


def first_at(data: bytes) -> int:
    """Where the first record begins."""
    return LINE_ENDS.match(data, len(MARK) if data.startswith(MARK) else 0).end()


def records_numbered(data: bytes, numbers: Collection[int]) -> dict[int, Record]:
    """Those of these numbers, as `records` has them. The others are only counted, which is faster.
    """
    found: dict[int, Record] = {}
    for number, it in enumerate(RECORD.finditer(data, first_at(data)), 1):
        if number in numbers:
            fields, end = record_at(data, it.start())
            line = 1 + len(LINE_END.findall(data, 0, it.start()))
            found[number] = Record(number, line, tuple(fields), data[it.start() : end])
            if number >= max(numbers):
                break
    return found


def record_at(data: bytes, at: int) -> tuple[list[bytes], int]:
    """What the fields of the record say that begins here, and where it ends."""
    plain = PLAIN.match(data, at)
    if plain:
        return plain[1].split(b","), plain.end()
    fields: list[bytes] = []
    while not fields or data.startswith(b",", at):
        value, at = field_at(data, at + 1 if fields else at)
        fields.append(value)
    return fields, END.match(data, at).end()


def field_at(data: bytes, at: int) -> tuple[bytes, int]:
    """What the field says that begins here, and where it ends. In quotes two quotes are one, and
    what follows them belongs to it.
    """
    if not data.startswith(b'"', at):
        found = UNQUOTED.match(data, at)
        return found[0], found.end()
    close = data.find(b'"', at + 1)
    while close >= 0 and data.startswith(b'"', close + 1):
        close = data.find(b'"', close + 2)
    if close < 0:
        return data[at + 1 :].replace(b'""', b'"'), len(data)
    behind = UNQUOTED.match(data, close + 1)
    return data[at + 1 : close].replace(b'""', b'"') + behind[0], behind.end()


def read_whole(path: str | Path, header: tuple[str, ...]) -> tuple[bytes, Record, list[Record]]:
    """The byte order mark of a file or nothing, its header, and the records below it, each with as
    many fields.

    What is otherwise ends the command.
    """
    data = read_file(path)
    found = list(records(data))
    if not found or found[0].texts != header:
        raise Stop(Status.ROW, f"{path}: record 1 is not the header {','.join(header)}")
    for record in found[1:]:
        if len(record.fields) != len(header):
            raise Stop(
                Status.ROW, f"{path}: record {record.number} does not have {len(header)} fields"
            )
    return MARK if data.startswith(MARK) else b"", found[0], found[1:]


def read(path: str | Path, header: tuple[str, ...]) -> list[Record]:
    """The records of a file below the header."""
    return read_whole(path, header)[2]


class DayTable:
    """Fixings by label and day, and whether days are dates; without a row they are neither."""

    def __init__(self, values: dict[str, dict[int, str]], are_dates: bool | None = None) -> None:
        self.values = values
        self.are_dates = are_dates

    def add(self, label: str, day: Day, value: str) -> str | None:
        """Takes a row, or says why it does not go with those before it."""
        if self.are_dates not in (None, day.is_date):
            return "has a day of another kind than those before it"
        self.are_dates = day.is_date
        if self.values.setdefault(label, {}).setdefault(day.number, value) != value:
            return "has another value for a day that has one"
        return None

    def until(self, last: int) -> DayTable:
        """The rows up to a day; a label without one is left out."""
        known = {
            label: {day: it for day, it in values.items() if day <= last}
            for label, values in self.values.items()
        }
        return DayTable(
            {label: values for label, values in known.items() if values}, self.are_dates
        )

    def filled_lines(self, to: int | None = None) -> Iterator[str]:
        """The lines of a table with a row for each day, in which the last values hold up to a day,
        if one is named.
        """
        yield ",".join(FIXINGS) + "\n"
        for label, values in self.values.items():
            last = max(values) if to is None else max(max(values), to)
            for day, value in filled(values, last):
                yield f"{label},{Day(day, bool(self.are_dates))},{value}\n"


def filled(values: dict[int, str], last: int) -> Iterator[tuple[int, str]]:
    """Each day from the first to the last, with its value or that of the last day before it that
    has one.
    """
    value = values[min(values)]
    for day in range(min(values), last + 1):
        value = values.get(day, value)
        yield day, value


def rows_by_label(path: str | Path) -> DayTable:
    """A file of fixings by label and day."""
    table = DayTable({})
    for record in read(path, FIXINGS):
        label, day, value = record.texts[0], day_of(record.texts[1]), record.texts[2]
        if day is None or not NAME.fullmatch(label) or not VALUE.fullmatch(value):
            raise Stop(Status.ROW, f"{path}: record {record.number} is not LABEL,DAY,VALUE")
        if why := table.add(label, day, value):
            raise Stop(Status.ROW, f"{path}: record {record.number} {why}")
    return table


def quoted(field: str) -> str:
    """A field as it is written: in quotes if it has a comma, a quote or a line end."""
    return '"' + field.replace('"', '""') + '"' if re.search('[",\r\n]', field) else field


def lines_of(rows: Iterable[Iterable[str]]) -> Iterator[str]:
    """The lines of a table of these rows."""
    for row in rows:
        yield ",".join(map(quoted, row)) + "\n"
