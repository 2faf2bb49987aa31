"""A text that does not parse: what stands at the fault, what may stand there, and a cure."""

from __future__ import annotations

from ..program import BadText
from ..texts import tokens
from ..texts.machine import Fault
from ..texts.reading import Reading
from ..texts.tokens import BYTE_ORDER_MARK, Place
from . import cures
from .notes import Note
from .scenes import Scene

REASONS = {
    "number": "is outside the limits of its place",
    "date": "is no date from 1900-01-01 to 2999-12-31",
    "deep": "stands too deep",
    "range": "does not go with the scale and the other bound",
    "twice": "is declared twice",
    "unknown": "is not known here",
}


def note_of(file: str, reading: Reading, cause: BadText) -> Note:
    """The explanation of a fault that the program has told."""
    place = Place(cause.line, cause.column)
    fault = fault_at(reading, place, cause.kind)
    lines = told(reading, fault) if fault else ()
    return Note(file, cause.kind, reading.source, place, tuple(lines))


def note_of_fault(file: str, reading: Reading, fault: Fault) -> Note:
    """The explanation of a fault that the parser has found."""
    return Note(
        file,
        fault.kind,
        reading.source,
        reading.source.place(fault.at),
        tuple(told(reading, fault)),
    )


def fault_at(reading: Reading, place: Place, kind: str) -> Fault | None:
    """The parser's fault at the place. It is looked for there first, so that a long text is not
    read whole.
    """
    at = reading.source.at(place)
    number = reading.segment_at(at)
    # Where a segment begins the one before it may lack its end.
    numbers = [number - 1, number] if number and reading.segments[number].at == at else [number]
    is_whole = reading.source.no_utf8_at is None and not reading.is_broken
    found = [reading.fault_of(it) for it in numbers] if is_whole else [reading.fault]
    return next(
        (it for it in found if it and it.kind == kind and reading.source.place(it.at) == place),
        None,
    )


def told(reading: Reading, fault: Fault) -> list[str]:
    """What is said below the line: what stands there, what may stand there, and the cure."""
    scene = Scene(reading, fault)
    lines = [
        f"{what_stands(reading, fault)}; {what_may_stand(fault)}"
        if fault.kind != "utf8"
        else "from here on the text is not UTF-8"
    ]
    cure = cures.cure(scene)
    return lines + ([cure] if cure else [])


def what_stands(reading: Reading, fault: Fault) -> str:
    token = fault.token
    if fault.kind == "syntax":
        return f"here stands {named(reading, fault)}"
    return f"'{shortened(token.text)}' {REASONS[fault.kind]}"


def named(reading: Reading, fault: Fault) -> str:
    if fault.token.kind == tokens.END:
        return "the end of the text"
    if fault.token.kind == tokens.STRAY:
        if (
            reading.text[fault.at : fault.at + 64].isidentifier()
            and reading.text[fault.at].isascii()
        ):
            return "a word of more than 64 characters"
        if reading.source.data.startswith(BYTE_ORDER_MARK, fault.at):
            return "a byte order mark"
        character = reading.source.data[fault.at : fault.at + 4].decode("utf-8", "ignore")[:1]
        return f"{character!r}, with which nothing begins"
    return f"'{shortened(fault.token.text)}'"


def what_may_stand(fault: Fault) -> str:
    offers = fault.offers.told()
    return f"here may stand: {', '.join(offers)}" if offers else "nothing may stand here"


def shortened(text: str) -> str:
    return text if len(text) <= 70 else text[:60] + ".."
