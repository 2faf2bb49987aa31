"""Days: numbers and dates, weekdays, holidays.

A date is held as its ordinal, with 1 for 0001-01-01, as `datetime.date` counts. The years go from
0000 to 9999, as the program's do.
"""

from __future__ import annotations

import datetime
import re
from pathlib import Path
from typing import NamedTuple

from .program import Status, Stop, reason_of

NUMBER = re.compile(r"-?[0-9]{1,9}")
DATE = re.compile(r"[0-9]{4}-[0-9]{2}-[0-9]{2}")
WEEKDAYS = ("Monday", "Tuesday", "Wednesday", "Thursday", "Friday", "Saturday", "Sunday")
# Four centuries have as many days whatever their first year.
ERA_YEARS, ERA_DAYS = 400, 146_097
LAST_ORDINAL = datetime.date.max.toordinal()
FIRST_ORDINAL = 1 - 366
# The day that spreadsheets number 0, but for the first two months of 1900.
SERIAL_ZERO = datetime.date(1899, 12, 30).toordinal()


def ordinal_of(text: str) -> int | None:
    """The ordinal of a date `YYYY-MM-DD`, or nothing if there is no such date."""
    if not DATE.fullmatch(text):
        return None
    year, month, day = map(int, text.split("-"))
    eras = 1 if year == 0 else 0
    try:
        return datetime.date(year + eras * ERA_YEARS, month, day).toordinal() - eras * ERA_DAYS
    except ValueError:
        return None


def date_text(ordinal: int) -> str | None:
    """The date of an ordinal, or nothing if its year does not have four digits."""
    if not FIRST_ORDINAL <= ordinal <= LAST_ORDINAL:
        return None
    if ordinal >= 1:
        return datetime.date.fromordinal(ordinal).isoformat()
    return "0000" + datetime.date.fromordinal(ordinal + ERA_DAYS).isoformat()[4:]


def weekday_of(ordinal: int) -> str:
    return WEEKDAYS[(ordinal - 1) % 7]


def is_weekend(ordinal: int) -> bool:
    return (ordinal - 1) % 7 >= 5


class Day(NamedTuple):
    """A day as it is written: a number, or the ordinal of a date."""

    number: int
    is_date: bool = False

    def __str__(self) -> str:
        return (self.is_date and date_text(self.number)) or str(self.number)


def day_of(text: str) -> Day | None:
    """The day that a text is, as in a table: a number of up to nine digits, or a date that exists.
    """
    if NUMBER.fullmatch(text):
        return Day(int(text))
    ordinal = ordinal_of(text)
    return None if ordinal is None else Day(ordinal, is_date=True)


class Calendar(NamedTuple):
    """What the days of a portfolio are: dates from an origin on, if there is one, and those on
    which nobody pays.
    """

    origin: int | None = None
    holidays: frozenset[int] = frozenset()

    def ordinal(self, day: int) -> int | None:
        return None if self.origin is None else self.origin + day

    def number(self, day: Day) -> int | None:
        """The number of a day that is written either way, or nothing for a date without an origin.
        """
        if not day.is_date:
            return day.number
        return None if self.origin is None else day.number - self.origin

    def text(self, day: int) -> str:
        """The day as the program prints it: its date if there is an origin, and otherwise its
        number.
        """
        ordinal = self.ordinal(day)
        return (ordinal is not None and date_text(ordinal)) or str(day)

    def told(self, day: int) -> str:
        """The day in words: `2026-01-11 (day 6, a Sunday)`, or `day 6` without an origin."""
        ordinal = self.ordinal(day)
        date = None if ordinal is None else date_text(ordinal)
        return (
            f"{date} (day {day}, a {weekday_of(ordinal)})"
            if date and ordinal is not None
            else f"day {day}"
        )

    def why_closed(self, day: int) -> str | None:
        """Why nobody pays on that day: `a Saturday`, `a holiday`; or nothing."""
        ordinal = self.ordinal(day)
        if ordinal is None:
            return None
        if is_weekend(ordinal):
            return f"a {weekday_of(ordinal)}"
        return "a holiday" if ordinal in self.holidays else None


def read_holidays(path: str | Path) -> frozenset[int]:
    """The ordinals of a file of holidays: a date a line; what stands behind it or behind `#` is
    left aside, and so are empty lines.
    """
    try:
        lines = Path(path).read_text(encoding="utf-8-sig").splitlines()
    except OSError as error:
        raise Stop(Status.UNREAD, f"{path}: {reason_of(error)}") from error
    except ValueError as error:
        raise Stop(Status.ROW, f"{path}: it is not UTF-8") from error
    return frozenset(
        holiday_of(path, number, line)
        for number, line in enumerate(lines, 1)
        if line.split("#")[0].strip()
    )


def holiday_of(path: str | Path, number: int, line: str) -> int:
    ordinal = ordinal_of(re.split(r"[\s,;#]", line.strip(), maxsplit=1)[0])
    if ordinal is None:
        raise Stop(Status.ROW, f"{path}: line {number} does not begin with a date YYYY-MM-DD")
    return ordinal
