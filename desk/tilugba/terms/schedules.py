"""Dates and parts of a year as QuantLib has them: cycles, business days, day counts."""

from __future__ import annotations

import re
from collections.abc import Mapping
from dataclasses import dataclass
from fractions import Fraction
from typing import Any

from ..calendars import BusinessDays
from ..days import ordinal_of
from ..program import Stop
from ..quantlib import QuantLibDays, calendar_named, date_of, library
from ..quantlib import ordinal_of as ordinal_of_date
from ..rows.fields import Fields

CYCLE = re.compile(r"P([0-9]{1,4})([DWMQHY])L([01])")
DAYS = re.compile(r"P([0-9]{1,4})D(?:L[01])?")
# The units of cycles: of QuantLib, and how many of them.
UNITS = {
    "D": ("Days", 1),
    "W": ("Weeks", 1),
    "M": ("Months", 1),
    "Q": ("Months", 3),
    "H": ("Months", 6),
    "Y": ("Years", 1),
}
# The conventions by which days are moved: of QuantLib, and whether interest is counted first.
MOVES: Mapping[str, str] = {
    "F": "Following",
    "MF": "ModifiedFollowing",
    "P": "Preceding",
    "MP": "ModifiedPreceding",
}
CONVENTIONS = ("NULL", "NOS", *(f"{order}{move}" for order in ("SC", "CS") for move in MOVES))
MONTH_ENDS = ("SD", "EOM")
DAY_COUNTS = ("AA", "AAISDA", "A360", "A365", "30E360", "30E360ISDA")
# Parts of a year by Actual/Actual have this denominator, or one that divides it.
YEARS, CLOSE = 365 * 366, 1e-12
NO_DAYS, WEEKENDS, OWN = "NC", "MF", "CUSTOM"


@dataclass(frozen=True)
class Cycle:
    """A number of units of time, and whether what is left at the end is a period of its own."""

    count: int
    unit: str
    has_short_stub: bool

    @property
    def period(self) -> Any:
        ql = library()
        unit, times = UNITS[self.unit]
        return ql.Period(self.count * times, getattr(ql, unit))


def date(fields: Fields, name: str) -> int:
    """The ordinal of a date."""
    text = fields.text(name)
    if (ordinal := ordinal_of(text)) is None:
        raise fields.fault(name, f"{text!r} is no date YYYY-MM-DD")
    try:
        date_of(ordinal)
    except Stop as stop:
        raise fields.fault(name, stop.message) from stop
    return ordinal


def cycle(fields: Fields, name: str) -> Cycle:
    text = fields.text(name)
    found = CYCLE.fullmatch(text)
    if not found or int(found[1]) == 0:
        what = "a cycle is as P6ML1: a period, with L0 behind it for a long last one, or L1"
        raise fields.fault(name, f"{text!r} is none; {what}")
    return Cycle(int(found[1]), found[2], found[3] == "1")


def days(fields: Fields, name: str) -> int:
    """A number of days, as P2D; without it 0."""
    if not fields.has(name):
        return 0
    text = fields.text(name)
    if not (found := DAYS.fullmatch(text)):
        raise fields.fault(name, f"{text!r} is no number of days, as P2D")
    return int(found[1])


def cycle_dates(anchor: int, step: Cycle, end: int, to_month_end: bool) -> list[int]:
    """The days of a cycle from its anchor to its end, with both."""
    if anchor >= end:
        return [end]
    found = forward(anchor, step, end, to_month_end)
    behind = ordinal_of_date(date_of(end) + step.period + step.period)
    is_regular = end in forward(anchor, step, behind, to_month_end)
    if not step.has_short_stub and not is_regular and len(found) > 2:
        del found[-2]
    return found


def forward(anchor: int, step: Cycle, end: int, to_month_end: bool) -> list[int]:
    ql = library()
    no_move = ql.Unadjusted
    made = ql.Schedule(
        date_of(anchor),
        date_of(end),
        step.period,
        ql.NullCalendar(),
        no_move,
        no_move,
        ql.DateGeneration.Forward,
        to_month_end,
    )
    return sorted({ordinal_of_date(it) for it in made})


@dataclass(frozen=True)
class Moves:
    """How days are moved: by a calendar and a convention, before interest is counted or not."""

    calendar: Any
    convention: Any
    counts_first: bool

    def paid(self, ordinal: int) -> int:
        """When a payment of a day is made."""
        return ordinal_of_date(self.calendar.adjust(date_of(ordinal), self.convention))

    def counted(self, ordinal: int) -> int:
        """The day of a period, as interest is counted."""
        return ordinal if self.counts_first else self.paid(ordinal)

    def later(self, ordinal: int, business_days: int) -> int:
        """So many business days later, or earlier; with none the day itself, or the one before it
        that is open.
        """
        ql = library()
        moved = self.calendar.advance(date_of(ordinal), business_days, ql.Days, ql.Preceding)
        return ordinal_of_date(moved)


def moves_of(fields: Fields, own: BusinessDays | None) -> Moves:
    """How a trade moves days; `own` are those that the command line names."""
    ql = library()
    name = "businessDayConvention"
    text = fields.one_of(name, CONVENTIONS) if fields.has(name) else "NULL"
    named = MOVES.get(text[2:]) if text not in ("NULL", "NOS") else None
    convention = getattr(ql, named) if named else ql.Unadjusted
    return Moves(calendar_of(fields, own), convention, not text.startswith("SC"))


def calendar_of(fields: Fields, own: BusinessDays | None) -> Any:
    """The calendar of a trade, of QuantLib."""
    ql = library()
    name = "calendar"
    text = fields.texts.get(name) or NO_DAYS
    if text == NO_DAYS:
        return ql.NullCalendar()
    if text == WEEKENDS:
        return ql.WeekendsOnly()
    if text != OWN:
        try:
            return calendar_named(text)
        except Stop as stop:
            raise fields.fault(name, f"{stop.message}; or it is NC, MF or CUSTOM") from stop
    if own is None:
        raise fields.fault(name, f"{OWN} is the calendar of --calendar, which is not given")
    if isinstance(own, QuantLibDays):
        return own.calendar
    made = ql.BespokeCalendar("the file of holidays")
    made.addWeekend(ql.Saturday)
    made.addWeekend(ql.Sunday)
    for holiday in sorted(own.holidays):
        made.addHoliday(date_of(holiday))
    return made


def part_of_year(fields: Fields, start: int, end: int, maturity: int) -> tuple[int, int]:
    """The part of a year from a day to another, as a numerator and a denominator."""
    ql = library()
    text = fields.one_of("dayCountConvention", DAY_COUNTS)
    first, last = date_of(start), date_of(end)
    if text in ("AA", "AAISDA"):
        exact = ql.ActualActual(ql.ActualActual.ISDA).yearFraction(first, last)
        part = Fraction(exact).limit_denominator(YEARS)
        if abs(float(part) - exact) > CLOSE:
            raise fields.fault("dayCountConvention", f"{exact} is no quotient of days and years")
        return part.numerator, part.denominator
    if text.startswith("A"):
        return last - first, 360 if text == "A360" else 365
    kind = ql.Thirty360.European if text == "30E360" else ql.Thirty360.ISDA
    counter = ql.Thirty360(kind) if text == "30E360" else ql.Thirty360(kind, date_of(maturity))
    return counter.dayCount(first, last), 360
