"""On which days a contract or code may read a label: the first and the last day of each read,
counted from where the contract begins.

What is read depends on the rates, so these are the days on which it may be, and not those on which
it is.
"""

from __future__ import annotations

from collections.abc import Iterator
from typing import NamedTuple

from . import trees
from .measures import Measures, date_of
from .names import Declarations
from .trees import Term


class Days(NamedTuple):
    """The days from a first to a last."""

    first: int
    last: int

    def later(self, first: int, last: int | None = None) -> Days:
        return Days(self.first + first, self.last + (first if last is None else last))

    def have(self, day: int) -> bool:
        return self.first <= day <= self.last


class Placed(NamedTuple):
    """A term and the days on which it may stand."""

    term: Term
    days: Days


def placed(term: Term, declared: Declarations) -> Iterator[Placed]:
    """Each term of a contract or of code, with the days on which it may stand."""
    measures = Measures(term, declared)
    rest = [Placed(term, Days(0, 0))]
    while rest:
        found = rest.pop()
        yield found
        rest.extend(reversed(list(parts_of(found, measures))))


def parts_of(found: Placed, measures: Measures) -> Iterator[Placed]:
    """The parts of a term, with the days on which they may stand."""
    term, days = found.term, found.days
    if term.form == "acc":
        length = int(term.told("length")[0])
        yield Placed(term.parts[0], days.later(1 - length, 0))
        yield Placed(term.parts[1], days.later(-length))
    elif term.form == "after":
        yield Placed(term.parts[0], days.later(measures.days_of(term)))
    elif term.form == "if" and term.sort == trees.CONTRACT:
        length = measures.days_of(term)
        yield Placed(term.parts[0], days.later(0, length))
        yield Placed(term.parts[1], days.later(0, length))
        yield Placed(term.parts[2], days.later(length))
    elif term.form == "loop":
        length = date_of(term, measures.declared)
        yield Placed(term.parts[0], days.later(0, length))
        yield Placed(term.parts[1], days.later(0, length))
        yield Placed(term.parts[2], days)
    else:
        for part in term.parts:
            yield Placed(part, days)


def reads_of(term: Term, declared: Declarations) -> Iterator[tuple[str, Days]]:
    """The labels that a contract or code may read, each with the days of one read."""
    for found in placed(term, declared):
        if found.term.form == "obs":
            yield found.term.told("label")[0], found.days.later(int(found.term.told("offset")[0]))
        elif found.term.form == "model":
            yield found.term.told("label")[0], found.days.later(date_of(found.term, declared))


def payments_of(term: Term, declared: Declarations) -> Iterator[Placed]:
    """The payments of a contract or of code, with the days on which they may be."""
    for found in placed(term, declared):
        if found.term.form == "pay":
            shift = date_of(found.term, declared) if found.term.sort == trees.AMOUNT else 0
            yield Placed(found.term, found.days.later(shift))
