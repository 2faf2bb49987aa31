"""The places that a book may read and a table lacks, up to a day, with the contracts that read
them.
"""

from __future__ import annotations

import sys
from collections.abc import Iterator
from contextlib import contextmanager
from dataclasses import dataclass, field

from ..days import Calendar, day_of
from ..program import Program
from ..tables import records
from ..texts.reading import Reading
from .facts import Facts
from .probes import Probe, ask, head_of, probe_of
from .walk import Place, Walk

# A term is at most 200 deep, and a level takes a few calls.
DEEP = 5_000


@dataclass
class Need:
    """A place that may be read and is not fixed: whether some contract reads it on every way, and
    which contracts may read it.
    """

    label: str
    day: int
    is_sure: bool = False
    contracts: list[str] = field(default_factory=list)


@dataclass(frozen=True)
class Walked:
    """A contract with its walk, and the text in which its places are."""

    name: str
    walk: Walk
    text: str

    def probes(self) -> Iterator[Probe]:
        return (probe_of(self.walk, question, self.text) for question in self.walk.questions)


def fixed_places(fixings: bytes, calendar: Calendar) -> frozenset[Place]:
    """The places of a table of fixings that the program takes."""
    found = set()
    for record in list(records(fixings))[1:]:
        day = day_of(record.texts[1])
        number = calendar.number(day) if day else None
        if number is not None:
            found.add((record.texts[0], number))
    return frozenset(found)


def needs_of(reading: Reading, fixings: bytes, until: int, program: Program) -> list[Need]:
    """What a book without a fault lacks up to a day, by day and then by label."""
    fixed = fixed_places(fixings, Calendar(reading.declared.origin))
    found: dict[Place, Need] = {}
    with deep_calls():
        for walked in answered(reading, fixings, until, fixed, program):
            for place, is_sure in walked.walk.found.places.items():
                if place[1] <= until and place not in fixed:
                    need = found.setdefault(place, Need(*place))
                    need.is_sure = need.is_sure or is_sure
                    need.contracts.append(walked.name)
    return sorted(found.values(), key=lambda it: (it.day, it.label))


def answered(
    reading: Reading, fixings: bytes, until: int, fixed: frozenset[Place], program: Program
) -> list[Walked]:
    """The walks through all contracts, with the answers to their questions. An answer may lead to
    further questions.
    """
    declared = reading.declared
    walks = [
        Walked(
            statement.name,
            Walk(Facts(statement.term, declared), declared.start, until, fixed),
            reading.text[base:],
        )
        for base, statement in reading.statements()
        if statement.term is not None
    ]
    open_walks = [it for it in walks if it.walk.questions]
    while open_walks:
        ask(
            program,
            head_of(declared),
            [probe for it in open_walks for probe in it.probes()],
            fixings,
        )
        for it in open_walks:
            it.walk.again()
        open_walks = [it for it in open_walks if it.walk.questions]
    return walks


@contextmanager
def deep_calls() -> Iterator[None]:
    """Calls may be as deep as terms are."""
    before = sys.getrecursionlimit()
    sys.setrecursionlimit(max(before, DEEP))
    try:
        yield
    finally:
        sys.setrecursionlimit(before)
