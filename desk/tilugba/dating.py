"""Numbers of days for the dates of a portfolio, each counted from the day on which the part stands
that has it.
"""

from __future__ import annotations

from collections.abc import Iterator
from dataclasses import dataclass

from .calendars import Mover
from .days import Calendar, date_text, ordinal_of
from .texts import trees
from .texts.dated import DATE
from .texts.reading import Reading
from .texts.rewriting import Edit, rewritten
from .texts.trees import Argument, Statement, Term

MOST_DAYS, MOST_BACK = 100_000, 1_000_000
BRANCH = "in a `then` branch, which begins on the day on which its test is true"
BODY = "in the body of an accumulator, which stands on each of its days"
TEST = "in a test that is looked at on several days"
TEMPLATE = "behind a delay by a template, which may be set otherwise"


class DateFault(Exception):
    """A date that is no number of days: its place in the text, and why."""

    def __init__(self, at: int, why: str) -> None:
        super().__init__(why)
        self.at = at
        self.why = why


@dataclass(frozen=True)
class Stand:
    """The number of the day on which a part stands; without one, why it is not known."""

    day: int | None
    why: str = ""

    def later(self, days: int | None) -> Stand:
        """So many days later; it is not known how many if a template says it."""
        if self.day is None:
            return self
        return Stand(None, TEMPLATE) if days is None else Stand(self.day + days)

    def unless_known(self, why: str) -> Stand:
        """A day that is not known, if this one is."""
        return self if self.day is None else Stand(None, why)


@dataclass(frozen=True)
class Dating:
    """Puts numbers in the place of dates, in a text without a fault of its grammar."""

    reading: Reading
    mover: Mover

    @property
    def calendar(self) -> Calendar:
        return Calendar(self.reading.declared.origin)

    def text(self) -> str:
        """The text with numbers. All else stays."""
        return rewritten(self.reading.text, self.edits())

    def edits(self) -> Iterator[Edit]:
        for base, statement in self.reading.statements():
            if statement.term is not None:
                yield from self.term_edits(base, statement.term)
            elif statement.word == "template":
                yield from self.template_edits(base, statement)

    def template_edits(self, base: int, statement: Statement) -> Iterator[Edit]:
        """A template counts from the start."""
        for date in dates_in(statement.arguments):
            days = self.days(base, date, Stand(self.reading.declared.start))
            yield edit_of(base, date, days)

    def term_edits(self, base: int, term: Term) -> Iterator[Edit]:
        """The edits of a contract, which stands on the start, in the order of the text."""
        rest = [(term, Stand(self.reading.declared.start))]
        while rest:
            found, stand = rest.pop()
            days = days_of(found)
            for date in dates_in(found.arguments):
                count = self.offset if found.form == "obs" else self.days
                days = count(base, date, stand, found.form == "after")
                yield edit_of(base, date, days)
            rest.extend(reversed(list(zip(found.parts, stands_of(found, stand, days)))))

    def day_of(self, base: int, date: Argument, is_moved: bool) -> int:
        """The number of the day of a date, which is moved if it is closed."""
        origin, ordinal = self.reading.declared.origin, ordinal_of(date.text)
        if origin is None or ordinal is None:
            raise DateFault(base + date.at, "the portfolio has no origin, from which a date counts")
        return (self.mover.moved(ordinal) if is_moved else ordinal) - origin

    def days(self, base: int, date: Argument, stand: Stand, is_moved: bool = False) -> int:
        """The days from where a part stands to a date."""
        day, on = self.known(base, date, stand, is_moved)
        if day < on:
            moved = self.moved_to(date, day)
            why = (
                f"{date.text}{moved} is before {self.calendar.told(on)}, on which this part begins"
            )
            raise DateFault(base + date.at, why)
        if day - on > MOST_DAYS:
            why = f"{date.text} is more than {MOST_DAYS:,} days after {self.calendar.told(on)}"
            raise DateFault(base + date.at, why)
        return day - on

    def offset(self, base: int, date: Argument, stand: Stand, _: bool = False) -> int:
        """The days from where an observation stands to a date, which are no more than 0."""
        day, on = self.known(base, date, stand, False)
        if day > on:
            why = f"{date.text} is after {self.calendar.told(on)}, on which this is looked at"
            raise DateFault(base + date.at, why)
        if on - day > MOST_BACK:
            why = f"{date.text} is more than {MOST_BACK:,} days before {self.calendar.told(on)}"
            raise DateFault(base + date.at, why)
        return day - on

    def known(self, base: int, date: Argument, stand: Stand, is_moved: bool) -> tuple[int, int]:
        day = self.day_of(base, date, is_moved)
        if stand.day is None:
            raise DateFault(base + date.at, f"no date may be {stand.why}: write days")
        return day, stand.day

    def moved_to(self, date: Argument, day: int) -> str:
        """To which day a date was moved, in words."""
        moved = date_text((self.reading.declared.origin or 0) + day)
        return "" if moved == date.text else f", moved to {moved},"


def dates_in(arguments: list[Argument]) -> list[Argument]:
    return [it for it in arguments if it.role == DATE]


def edit_of(base: int, date: Argument, days: int) -> Edit:
    return Edit(base + date.at, base + date.at + len(date.text), str(days))


def days_of(term: Term) -> int | None:
    """The days of a term that are written as a number; none if templates are among them."""
    return None if term.told("template") else sum(map(int, term.told("days", "length")))


def stands_of(term: Term, stand: Stand, days: int | None) -> list[Stand]:
    """Where the parts of a term stand."""
    if term.form == "after":
        return [stand.later(days)]
    if term.form == "acc":
        return [stand.unless_known(BODY), stand.later(-days if days is not None else None)]
    if term.form == "if" and term.sort == trees.CONTRACT:
        test = stand if days == 0 else stand.unless_known(TEST)
        return [test, stand.unless_known(BRANCH), stand.later(days)]
    return [stand] * len(term.parts)
