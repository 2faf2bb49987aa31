"""A record of a table that is refused: the record, what is wrong with it, and a cure, also for what
spreadsheets write.
"""

from __future__ import annotations

import re
from typing import NamedTuple

from .. import days, tables
from ..command_line import CURVE, FIX, SCEN, nearest
from ..days import Calendar, day_of
from ..program import BadRow
from ..tables import Record
from ..texts.names import Declarations, Declared, NameSet
from ..texts.offers import number_told
from ..texts.tokens import GAP, Place, Source
from .notes import Note, counted, listed
from .text_faults import shortened

HEADERS = {FIX: tables.FIXINGS, CURVE: tables.CURVE, SCEN: tables.SCENARIOS}
# The field at which each kind of fault is, counted from the end of a record of fixings.
FIELDS = {"label": -3, "day": -2, "value": -1, "bounds": -1, "conflict": -1}
CURVE_FIELDS = {"day": 0, "factor": 1, "zero": 0, "rising": 0}
# A number of five digits is taken for a date of a spreadsheet if that is no farther from day 0 than
# this.
NEAR = 20_000
SERIAL = re.compile(rb',"?[0-9]{5}"?,')
SLASHED = re.compile(r"([0-9]{1,2})[/.]([0-9]{1,2})[/.]([0-9]{4})")


class Table(NamedTuple):
    """A table with a record at fault, and the declarations that it goes with."""

    file: str
    role: str
    book: str
    data: bytes
    declared: Declarations

    @property
    def header(self) -> tuple[str, ...]:
        return HEADERS[self.role]


def note_of(table: Table, cause: BadRow) -> Note:
    """The explanation of a record."""
    numbers = {cause.record - 1, cause.record, cause.earlier or cause.record}
    found = tables.records_numbered(table.data, numbers)
    record = found.get(cause.record)
    title = f"{cause.kind} (record {cause.record})"
    if record is None:
        return Note(table.file, title, lines=tuple(lines_of_nothing(table)))
    place = Place(record.line, column_of(table, record, cause.kind))
    lines = [it for it in lines_of(table, record, cause, found) if it]
    return Note(table.file, title, Source(table.data), place, tuple(lines))


def lines_of_nothing(table: Table) -> list[str]:
    """What is missing at the end of a table."""
    if not table.data.strip():
        return [f"the table is empty; its first record is {','.join(table.header)}"]
    if table.role == SCEN:
        return [
            "there is no scenario: the first field of a record is its name, or * for all scenarios"
        ]
    return [f"there is no record below {','.join(table.header)}"]


def column_of(table: Table, record: Record, kind: str) -> int:
    """The column of the field at fault, if its place is plain to see."""
    position = CURVE_FIELDS.get(kind) if table.role == CURVE else FIELDS.get(kind)
    if position is None or b'"' in record.data or len(record.fields) != len(table.header):
        return 1
    position %= len(record.fields)
    start = 4 if record.number == 1 and table.data.startswith(tables.MARK) else 1
    return start + sum(len(it) + 1 for it in record.fields[:position])


def lines_of(table: Table, record: Record, cause: BadRow, found: dict[int, Record]) -> list[
    str | None
]:
    if cause.kind == "shape":
        return shape_lines(table, record)
    if table.role == CURVE:
        return curve_lines(record, cause, found.get(cause.record - 1))
    label, day, value = record.texts[-3:]
    declared = table.declared.names(NameSet.LABEL).get(label)
    if cause.kind == "label" or declared is None:
        return label_lines(table, label)
    if cause.kind == "day":
        return day_lines(table, day)
    if cause.kind == "value":
        return value_lines(label, declared, value)
    if cause.kind == "bounds":
        return bounds_lines(table, label, declared)
    return conflict_lines(table, cause, found)


# ---- shape


def shape_lines(table: Table, record: Record) -> list[str | None]:
    wanted = ",".join(table.header)
    if record.number == 1:
        return [f"the first record has to be {wanted}", header_cure(table, record)]
    if record.fields and table.role == SCEN and len(record.fields) == len(table.header):
        return [
            f"'{shortened(record.texts[0])}' is no name of a scenario, and no *",
            "a name has letters, digits and `_`, as in fx_up_1",
        ]
    count = len(record.fields)
    there = f"there {'is' if count == 1 else 'are'} {counted(count, 'field')}"
    said = f"{there}; a record of {wanted} has {len(table.header)}"
    return [said, separator_cure(record) or quote_cure(record)]


def header_cure(table: Table, record: Record) -> str | None:
    texts = [it.strip().lower() for it in record.texts]
    if re.match(rf"{GAP}(portfolio|payoff|schedules)\b", table.data[:10_000].decode("latin-1")):
        return "this is a text and no table: the files stand in another order in the command"
    if separator := separator_cure(record):
        return separator
    if texts == list(table.header):
        return "it is written in small letters and without blanks"
    if texts[: len(table.header)] == list(table.header):
        return f"leave out what stands behind: {','.join(record.texts[len(table.header):])}"
    if sorted(texts) == sorted(table.header):
        return "the columns stand in another order"
    other = next((",".join(header) for header in HEADERS.values() if texts == list(header)), None)
    if other:
        return f"this is a table of {other}: the files stand in another order in the command"
    if len(texts) == len(table.header) and day_of(texts[-2]):
        return "the header is missing"
    return None


def separator_cure(record: Record) -> str | None:
    for mark, name in ((";", "semicolons"), ("\t", "tabs"), ("|", "bars")):
        if any(mark in it for it in record.texts):
            return f"fields have commas between them, and not {name}: export it as CSV with commas"
    return None


def quote_cure(record: Record) -> str | None:
    if record.data.count(b'"') % 2:
        return "a quote is not closed"
    if record.texts[0].lstrip().startswith("#"):
        return "a table has no comments"
    return (
        "a number has a comma in it, or there is a comma too many"
        if len(record.fields) > 2
        else None
    )


# ---- fields of fixings


def label_lines(table: Table, label: str) -> list[str | None]:
    names = list(table.declared.names(NameSet.LABEL))
    known = (
        f"declared are {listed(names[:12])}{' and others' if len(names) > 12 else ''}"
        if names
        else "none is declared"
    )
    near = nearest(label.strip(), names)
    return [
        f"label {shortened(label)} is not declared in {table.book}; {known}",
        f"is {near} meant?" if near else blank_cure(label),
    ]


def blank_cure(field: str) -> str | None:
    return (
        "blanks count: there is none before or behind a comma" if field != field.strip() else None
    )


def day_lines(table: Table, day: str) -> list[str | None]:
    found = day_of(day)
    if found and found.is_date and table.declared.origin is None:
        return [
            f"{day} is a date, and {table.book} has no origin",
            "give the text an `origin` line, or write days as numbers",
        ]
    if found:
        return [f"{day} is out of range: days go from -3,000,000 to 3,000,000"]
    return [
        f"'{shortened(day)}' is no day: a number of up to nine digits, or a date as 2026-01-05",
        day_cure(day),
    ]


def day_cure(day: str) -> str | None:
    if blank_cure(day):
        return blank_cure(day)
    if slashed := SLASHED.fullmatch(day):
        first, second, year = slashed.groups()
        readings = {
            f"{year}-{month:0>2}-{it:0>2}" for month, it in ((first, second), (second, first))
        }
        known = sorted(it for it in readings if days.ordinal_of(it) is not None)
        return f"write the date as {' or '.join(known)}" if known else None
    if days.DATE.match(day[:10]) and len(day) > 10:
        return f"leave out the time: {day[:10]}"
    if days.DATE.fullmatch(day):
        return "there is no such date"
    parts = [it for it in day.split("-") if it.isdigit()]
    return (
        "a date has four digits, two and two, as 2026-01-05"
        if len(parts) == 3 or len(day) == 8
        else None
    )


def value_lines(label: str, declared: Declared, value: str) -> list[str | None]:
    if declared.decimals is None:
        cure = f"write {value.lower()}" if value.lower() in ("true", "false") else None
        return [
            f"'{shortened(value)}' is neither true nor false, and {label} is a flag",
            cure or flag_cure(value) or blank_cure(value),
        ]
    decimals = value.partition(".")[2]
    if tables.VALUE.fullmatch(value) and value not in ("true", "false"):
        if len(decimals) > declared.decimals:
            cure = f"round it at its source to {declared.decimals}"
            return [
                f"{value} has {counted(len(decimals), 'decimal')}, and {label} has at most "
                f"{declared.decimals}",
                cure,
            ]
        return [f"{shortened(value)} is too great"]
    return [
        f"'{shortened(value)}' is no number: digits, and perhaps a point with digits behind it",
        value_cure(value),
    ]


def flag_cure(value: str) -> str | None:
    told = {
        "1": "true",
        "yes": "true",
        "y": "true",
        "t": "true",
        "0": "false",
        "no": "false",
        "n": "false",
        "f": "false",
    }
    return f"write {told[value.lower()]}" if value.lower() in told else None


def value_cure(value: str) -> str | None:
    plain = value.strip()
    if plain != value:
        return blank_cure(value)
    if re.fullmatch(r"[+][0-9]+([.][0-9]+)?", plain):
        return f"a number has no plus: {plain[1:]}"
    if re.fullmatch(r"-?[.][0-9]+", plain):
        return f"a digit stands before the point: {plain.replace('.', '0.')}"
    if re.fullmatch(r"-?[0-9]+[.]", plain):
        return f"a digit stands behind the point: {plain}0"
    if re.fullmatch(r"-?[0-9]+,[0-9]+", plain):
        return f"a point stands before decimals: {plain.replace(',', '.')}"
    if re.fullmatch(r"-?[0-9]{1,3}(,[0-9]{3})+([.][0-9]+)?", plain):
        return f"there are no marks between thousands: {plain.replace(',', '')}"
    if re.fullmatch(r"-?[0-9.]+[eE][-+]?[0-9]+", plain):
        return "a number has no exponent: write all its digits"
    if plain.endswith("%"):
        return "there is no %: 5 % is 0.05"
    if plain.lower() in ("", "nan", "na", "n/a", "null", "none", "#n/a", "-"):
        return "what was not observed has no record: leave it out"
    return (
        "a flag has true and false, and this label is a number"
        if plain in ("true", "false")
        else None
    )


def bounds_lines(table: Table, label: str, declared: Declared) -> list[str | None]:
    low, high = (
        number_told(it or 0, declared.decimals or 0) for it in (declared.low, declared.high)
    )
    return [
        f"{label} is declared in {table.book} from {low} to {high}",
        "contracts were accepted on the promise of these bounds: correct the value, or widen the "
        "bounds and check again",
    ]


def conflict_lines(table: Table, cause: BadRow, found: dict[int, Record]) -> list[str | None]:
    earlier = found.get(cause.earlier or 0)
    said = f"record {cause.earlier} says something else of that label and day"
    if earlier:
        said += f": line {earlier.line}, {shortened(','.join(earlier.texts))}"
    return [said, "take one of the two out"]


# ---- curves


def curve_lines(record: Record, cause: BadRow, before: Record | None) -> list[str | None]:
    offset, factor = record.texts[0], record.texts[-1]
    if cause.kind == "day":
        return [
            f"'{shortened(offset)}' is no number of days from 0 to 2,000,000",
            "offsets count days from the day of the value",
        ]
    if cause.kind == "factor":
        said = f"'{shortened(factor)}' is no factor: a number from 0 to 10 with at most 9 decimals"
        return [said, None if tables.VALUE.fullmatch(factor) else value_cure(factor)]
    if cause.kind == "zero":
        return [
            "the first offset has to be 0, for what is paid on the day itself",
            "mostly that is the record 0,1",
        ]
    earlier = before.texts[0] if before else ""
    return [
        f"offset {offset} is not above {earlier}, that of the record before it",
        "sort the table, and take out what is there twice",
    ]


# ---- days of spreadsheets


def serial_date(table: Table, label: str, calendar: Calendar) -> str | None:
    """A record whose day is a spreadsheet's number of a date, one of the label if there is one."""
    first = calendar.ordinal(0)
    if first is None or not SERIAL.search(table.data):
        return None
    found = [
        it
        for it in tables.records(table.data)
        if len(it.fields) == len(table.header) and is_serial(it.texts[-2], first)
    ]
    if not found:
        return None
    record = next((it for it in found if it.texts[-3] == label), found[0])
    date = days.date_text(days.SERIAL_ZERO + int(record.texts[-2]))
    return (
        f"record {record.number} has day {record.texts[-2]}, which is {date} as spreadsheets "
        "number days: write the date"
    )


def is_serial(day: str, first: int) -> bool:
    """Whether a day may be the number by which a spreadsheet has a date not far from the first day.
    """
    return len(day) == 5 and day.isdigit() and abs(days.SERIAL_ZERO + int(day) - first) < NEAR
