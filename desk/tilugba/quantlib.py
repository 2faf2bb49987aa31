"""QuantLib, which is optional: its calendars, and dates as ordinals. The one place that imports it.
"""

from __future__ import annotations

import datetime
from dataclasses import dataclass
from functools import cache
from types import ModuleType
from typing import Any

from .calendars import BusinessDays
from .days import date_text
from .program import Status, Stop

FIRST, LAST = datetime.date(1901, 1, 1).toordinal(), datetime.date(2199, 12, 31).toordinal()
# Its serial number of a date is that of spreadsheets.
SERIAL_ZERO = datetime.date(1899, 12, 30).toordinal()

WANTED = (
    "this wants QuantLib in its Python: Debian's package quantlib-python has it for "
    "/usr/bin/python3, and `pip install QuantLib` for others"
)


@cache
def library() -> ModuleType:
    """QuantLib, or what to do to have it."""
    try:
        import QuantLib
    except ImportError as error:
        raise Stop(Status.DESK, WANTED) from error
    return QuantLib


def date_of(ordinal: int) -> Any:
    """A date of QuantLib, whose years go from 1901 to 2199."""
    if not FIRST <= ordinal <= LAST:
        raise Stop(
            Status.ROW,
            f"{date_text(ordinal)}: the dates of QuantLib go from 1901-01-01 to 2199-12-31",
        )
    return library().Date(ordinal - SERIAL_ZERO)


def ordinal_of(date: Any) -> int:
    return int(date.serialNumber()) + SERIAL_ZERO


@dataclass(frozen=True)
class QuantLibDays(BusinessDays):
    """The business days of a calendar of QuantLib."""

    calendar: Any = None

    @classmethod
    def named(cls, name: str) -> QuantLibDays:
        """The calendar of a name: `TARGET`, or with a market of it `UnitedStates.NYSE`."""
        return cls(calendar=calendar_named(name))

    def is_open(self, ordinal: int) -> bool:
        return bool(self.calendar.isBusinessDay(date_of(ordinal)))


def calendar_named(name: str) -> Any:
    """A calendar of QuantLib by its class, and perhaps a market behind a point."""
    ql = library()
    kind, _, market = name.partition(".")
    made = getattr(ql, kind, None)
    known = isinstance(made, type) and issubclass(made, ql.Calendar) and made is not ql.Calendar
    if not known or (market and not isinstance(getattr(made, market, None), int)):
        raise Stop(
            Status.USAGE, f"QuantLib has no calendar {name}; it has {', '.join(calendar_names())}"
        )
    try:
        return made(getattr(made, market)) if market else made()
    except TypeError as error:
        raise Stop(
            Status.USAGE,
            f"the calendar {kind} of QuantLib wants a market, as {kind}.{markets_of(made)[0]}",
        ) from error


def calendar_names() -> list[str]:
    ql = library()
    skipped = (ql.Calendar, ql.BespokeCalendar, ql.JointCalendar)
    kinds = [
        it
        for it in vars(ql).values()
        if isinstance(it, type) and issubclass(it, ql.Calendar) and it not in skipped
    ]
    return sorted(it.__name__ for it in kinds)


def markets_of(kind: type) -> list[str]:
    return sorted(
        name for name, value in vars(kind).items() if isinstance(value, int) and name[0].isupper()
    ) or ["MARKET"]
