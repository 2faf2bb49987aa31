"""Which fixings a book asks for: the places up to a day that a table lacks.

Prints a table with a row for each place up to DAY that FIX lacks and that `flows BOOK FIX`, without
--until, may read. A rate that is due today for a payment next year is among them. Rows are ordered
by day, then by label:

  label, day     the place; days are numbers
  date, weekday  the same as a date, if BOOK has an origin
  holiday        with --calendar, `yes` on a weekend or a holiday, and else `no`
  sure           `yes` if it is read whatever comes, `if` if what is not known yet decides
  contracts      which may read it, with blanks between them

What FIX decides is decided: the program is asked. Of a choice of which something is missing both
ways are followed.

Ends with 0. A fault of BOOK or FIX is told as by `explain`, with its status; 11 if DAY is out of
range.
"""

from __future__ import annotations

import argparse
from collections.abc import Iterator

from .. import tables
from ..calendars import BusinessDays, add_calendar, calendar_of
from ..days import Calendar, date_text, day_of, weekday_of
from ..desk import Desk
from ..explanations.explaining import LAST_DAY, tell_fault
from ..files import read_file
from ..needs.listing import Need, needs_of
from ..program import Status, Stop
from ..texts.grammar import PORTFOLIO
from ..texts.reading import Reading

HEADER = ("label", "day", "date", "weekday", "holiday", "sure", "contracts")


def configure(parser: argparse.ArgumentParser) -> None:
    parser.add_argument("book", metavar="BOOK", help="a portfolio")
    parser.add_argument("fix", metavar="FIX", help="a table of fixings")
    parser.add_argument("--until", metavar="DAY", required=True, help="the last day of the places")
    add_calendar(parser)


def run(arguments: argparse.Namespace, desk: Desk) -> int:
    business_days = calendar_of(arguments)
    kept = {arguments.book: read_file(arguments.book), arguments.fix: read_file(arguments.fix)}
    book, fixings = kept[arguments.book], kept[arguments.fix]
    answer = desk.program.run("flows", book, fixings)
    if answer.status not in (Status.DONE, Status.MISSING):
        return tell_fault(desk, ["flows", arguments.book, arguments.fix], answer, kept)
    reading = Reading(book, PORTFOLIO)
    calendar = Calendar(reading.declared.origin)
    until = last_day(arguments, calendar, reading.declared.start)
    found = (
        needs_of(reading, fixings, until, desk.program) if answer.status == Status.MISSING else []
    )
    desk.write(
        *tables.lines_of([HEADER, *(fields_of(it, calendar, business_days) for it in found)])
    )
    return Status.DONE


def last_day(arguments: argparse.Namespace, calendar: Calendar, start: int) -> int:
    """The number of the day that --until names."""
    word = arguments.until
    day = day_of(word)
    if day is None:
        raise Stop(
            Status.USAGE, f"--until {word} is neither a number of days nor a date YYYY-MM-DD"
        )
    number = calendar.number(day)
    if number is None:
        raise Stop(Status.DAY, f"--until {word} is a date, and {arguments.book} has no origin")
    if not start <= number <= LAST_DAY:
        first = calendar.told(start)
        raise Stop(Status.DAY, f"--until {word} is out of range: from {first} to day {LAST_DAY:,}")
    return number


def fields_of(need: Need, calendar: Calendar, business_days: BusinessDays | None) -> Iterator[str]:
    """The fields of a row."""
    ordinal = calendar.ordinal(need.day)
    date = date_text(ordinal) if ordinal is not None else None
    yield from (
        need.label,
        str(need.day),
        date or "",
        weekday_of(ordinal) if date and ordinal is not None else "",
    )
    yield "" if business_days is None or ordinal is None else "no" if business_days.is_open(
        ordinal
    ) else "yes"
    yield "yes" if need.is_sure else "if"
    yield " ".join(need.contracts)
