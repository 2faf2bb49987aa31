"""Payments by month; of a book without dates by thirty days. The month of the report's day is
two: before it, and from it on.
"""

from __future__ import annotations

import datetime
from collections.abc import Iterable, Sequence
from dataclasses import dataclass
from decimal import Decimal

from ..answer_rows import Day, Flow
from ..days import Calendar
from .facts import balance

SPAN = 30
MOST_DRAWN = 60


@dataclass(frozen=True, order=True)
class Period:
    """A month or thirty days, and whether it is before the day of the report."""

    number: int
    is_due: bool
    name: str

    @property
    def told(self) -> str:
        return f"{self.name} {'due' if self.is_due else 'was due'}"


@dataclass(frozen=True)
class Periods:
    """The days of a book and the day of the report."""

    calendar: Calendar
    at: int

    def number(self, day: Day) -> int:
        """The number of a day of a payment."""
        if isinstance(day, datetime.date):
            return day.toordinal() - (self.calendar.origin or 0)
        return day

    def period(self, day: Day) -> Period:
        """The period of a payment."""
        number = self.number(day)
        is_due = number >= self.at
        if isinstance(day, datetime.date):
            return self.named(day.year * 12 + day.month - 1, is_due)
        return self.named(number // SPAN, is_due)

    def named(self, number: int, is_due: bool) -> Period:
        """The period of a number, with its name."""
        if self.calendar.origin is not None:
            return Period(number, is_due, f"{number // 12:04}-{number % 12 + 1:02}")
        return Period(number, is_due, f"{number * SPAN}..{number * SPAN + SPAN - 1}")

    def filled(self, known: Sequence[Period]) -> list[Period]:
        """These periods in order, with those between them, unless they would be too many to be
        seen.
        """
        if not known or known[-1].number - known[0].number > MOST_DRAWN:
            return list(known)
        numbers = {it.number for it in known}
        last_before = max((it.number for it in known if not it.is_due), default=known[0].number)
        between = [
            self.named(number, number > last_before)
            for number in range(known[0].number, known[-1].number)
            if number not in numbers
        ]
        return sorted([*known, *between])

    def balances(self, flows: Iterable[Flow]) -> dict[Period, dict[tuple[str, str], Decimal]]:
        """What each party gets in each asset, less what it pays, by period in their order."""
        found: dict[Period, list[Flow]] = {}
        for flow in flows:
            found.setdefault(self.period(flow.day), []).append(flow)
        return {it: balance(found[it]) for it in sorted(found)}
