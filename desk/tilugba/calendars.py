"""Business days, by a file of holidays, by a calendar of QuantLib, or by weekends alone; and how a
day that is none is moved.
"""

from __future__ import annotations

import argparse
import enum
from dataclasses import dataclass

from .days import date_text, is_weekend, read_holidays
from .program import Status, Stop

# Behind this comes the name of a calendar of QuantLib.
BY_QUANTLIB = "quantlib:"
# No holidays are longer.
LONGEST = 400


class Roll(enum.Enum):
    """Where a day goes that is no business day: to the next one, to the next one of its month or
    else back, or back.
    """

    FOLLOWING = "following"
    MODIFIED = "modified"
    PRECEDING = "preceding"


@dataclass(frozen=True)
class BusinessDays:
    """Which days are business days, by their ordinals: none at weekends, and no holiday."""

    holidays: frozenset[int] = frozenset()

    def is_open(self, ordinal: int) -> bool:
        return not is_weekend(ordinal) and ordinal not in self.holidays

    def rolled(self, ordinal: int, roll: Roll) -> int:
        """The day itself if it is a business day, or else where it goes."""
        if roll is Roll.PRECEDING:
            return self.next_open(ordinal, -1)
        later = self.next_open(ordinal, 1)
        if roll is Roll.MODIFIED and month_of(later) != month_of(ordinal):
            return self.next_open(ordinal, -1)
        return later

    def next_open(self, ordinal: int, step: int) -> int:
        for distance in range(LONGEST):
            if self.is_open(ordinal + step * distance):
                return ordinal + step * distance
        raise Stop(
            Status.ROW,
            f"the calendar has no business day within {LONGEST} days of {date_text(ordinal)}",
        )


def month_of(ordinal: int) -> str:
    return (date_text(ordinal) or "")[: len("2026-01")]


def add_calendar(parser: argparse.ArgumentParser) -> None:
    """Adds the option that names a calendar."""
    parser.add_argument(
        "--calendar",
        metavar="CALENDAR",
        help="a file of holidays, a date a line (what stands behind it is left aside), "
        f"or a calendar of QuantLib as {BY_QUANTLIB}TARGET",
    )


def add_roll(parser: argparse.ArgumentParser) -> None:
    """Adds the options that move payments off closed days."""
    add_calendar(parser)
    parser.add_argument(
        "--roll",
        choices=[it.value for it in Roll],
        help="move a payment that would be on a weekend or a holiday; without it none is moved",
    )


def calendar_of(arguments: argparse.Namespace) -> BusinessDays | None:
    """The calendar that is named, or nothing."""
    name: str | None = arguments.calendar
    if name is None:
        return None
    if not name.startswith(BY_QUANTLIB):
        return BusinessDays(read_holidays(name))
    from .quantlib import QuantLibDays

    return QuantLibDays.named(name.removeprefix(BY_QUANTLIB))


@dataclass(frozen=True)
class Mover:
    """Moves days as the options say; without --roll they stay. Without --calendar weekends alone
    are closed.
    """

    days: BusinessDays
    roll: Roll | None

    @classmethod
    def of(cls, arguments: argparse.Namespace) -> Mover:
        roll = Roll(arguments.roll) if arguments.roll else None
        return cls(calendar_of(arguments) or BusinessDays(), roll)

    def moved(self, ordinal: int) -> int:
        return self.days.rolled(ordinal, self.roll) if self.roll else ordinal
