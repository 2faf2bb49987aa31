"""A missing fixing: its date and weekday, the contracts that read it, and a cure."""

from __future__ import annotations

import re
from collections.abc import Iterable, Iterator
from itertools import islice
from typing import NamedTuple

from ..days import Calendar
from ..program import MissingFixing, Program, Stop
from ..texts.names import NameSet
from ..texts.reading import Reading
from ..texts.reads import reads_of
from .notes import Note, listed

# So many contracts are asked one by one whether they read it, and so many names are told.
MOST_ASKED, MOST_TOLD = 12, 6
# What a contract begins with; the offsets of observations; the lengths of waits and tests that are
# numbers; and all waits and tests.
FIRST_WAIT = re.compile(r"=\s*after\s*\(\s*([0-9]+)\s*,")
BACK = re.compile(r",\s*-\s*([0-9]+)\s*\)")
FORTH = re.compile(r",\s*([0-9]+)\s*\)")
AHEAD = re.compile(r"\b(?:after\s*\(|within\b)\s*([0-9]+)\s*(?:,|then\b)")
WAITS = re.compile(r"\b(?:after|within)\b")


class Asked(NamedTuple):
    """What was asked for: the text, the words behind the book for a run of one contract, and
    whether contracts can be run apart.
    """

    file: str
    reading: Reading
    behind: tuple[str | bytes, ...]
    are_contracts: bool


def note_of(
    asked: Asked, cause: MissingFixing, program: Program, cures: Iterable[str | None]
) -> Note:
    """The explanation of a missing fixing."""
    reading = asked.reading
    calendar = Calendar(reading.declared.origin)
    of = f" in the scenario {cause.scenario}" if cause.scenario else ""
    who = readers(asked, cause, program)
    title = f"missing fixing of {cause.label} on {calendar.told(cause.day)}{of}"
    lines = [*(it for it in cures if it), *weekend_lines(reading, calendar, cause)]
    return Note(asked.file, f"{title}{who}", lines=tuple(lines))


def weekend_lines(reading: Reading, calendar: Calendar, cause: MissingFixing) -> Iterator[str]:
    label = reading.declared.names(NameSet.LABEL).get(cause.label)
    value = (
        "true"
        if label and label.is_flag
        else "1.0000"
        if label and label.decimals == 4
        else "VALUE"
    )
    yield (
        "a record of the table of fixings says it: "
        f"{cause.label},{calendar.text(cause.day)},{value}"
    )
    closed = calendar.why_closed(cause.day)
    if closed:
        yield (
            f"the day is {closed}, and contracts look at those too: tilugba-desk fill-days gives "
            "each day the value of the last one"
        )


def readers(asked: Asked, cause: MissingFixing, program: Program) -> str:
    """Which contracts read it. Those that may by their text are asked, each by a run of its own,
    while they are few.
    """
    if not asked.are_contracts:
        return ""
    reading = asked.reading
    day = cause.day - reading.declared.start
    # No more are looked for than it takes to know that they are many.
    may = list(
        islice(
            (it for it in reading.defined if may_read(reading, it, cause.label, day)),
            MOST_ASKED + 1,
        )
    )
    if len(may) <= MOST_ASKED:
        do = [name for name in may if reads(program, asked, name, cause)]
        if do:
            return f", read by {told(do)}"
    return f", which may be read by {told(may)}" if may else ""


def is_out_of_reach(written: str, day: int) -> bool:
    """Whether a contract can be seen to read nothing on a day without being parsed: it waits beyond
    it before all else, or all its waits and tests together end before. Of names in place of days,
    sums of days, accumulators and comments nothing is seen.
    """
    if "#" in written or "acc" in written:
        return False
    first, back = FIRST_WAIT.search(written), sum(int(it) for it in BACK.findall(written))
    if first and int(first[1]) - back > day:
        return True
    ahead = AHEAD.findall(written)
    return (
        len(ahead) == len(WAITS.findall(written))
        and sum(int(it) for it in ahead + FORTH.findall(written)) < day
    )


def may_read(reading: Reading, name: str, label: str, day: int) -> bool:
    """Whether a contract may read the label on a day, by its text. One that can be seen not to is
    not even parsed.
    """
    number = reading.definition(name)
    if (
        number is None
        or label not in reading.slice(number)
        or is_out_of_reach(reading.slice(number), day)
    ):
        return False
    term = reading.read(number).statement.term
    return (
        term is not None
        and any(it == label and days.have(day) for it, days in reads_of(term, reading.declared))
    )


def reads(program: Program, asked: Asked, name: str, cause: MissingFixing) -> bool:
    """Whether the contract alone stops at this fixing too."""
    try:
        fault = program.run(
            "flows", asked.reading.source.data, *asked.behind, "--contract", name
        ).fault
    except Stop:
        return False
    return fault is not None and fault.cause == cause


def told(names: list[str]) -> str:
    """The names, of which no more than one too many are known."""
    if len(names) <= MOST_TOLD:
        return listed(names)
    return (
        f"{', '.join(names[:MOST_TOLD])} and "
        f"{'others' if len(names) > MOST_ASKED else f'{len(names) - MOST_TOLD} more'}"
    )
