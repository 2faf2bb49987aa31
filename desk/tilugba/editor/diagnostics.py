"""Faults as the editor shows them: of each statement by the parser, and of the whole text by the
program.
"""

from __future__ import annotations

from collections.abc import Iterator

from ..explanations import refusals, text_faults
from ..linting import Book, warnings_of
from ..program import Answer, BadText, Program, Refusal, Status, Stop
from ..texts.grammar import PORTFOLIO, SCHEDULES
from ..texts.machine import Fault
from ..texts.tokens import Place
from .documents import Document
from .protocol import Json

ERROR, WARNING = 1, 2
# More faults than these are not shown.
MOST = 100
NOBODY = ("--at", "0", "--from", "nobody", "--to", "nobody", "--asset", "nothing")


def diagnostic(
    document: Document, at: int, end: int, severity: int, kind: str, message: str
) -> Json:
    return {
        "range": document.range(at, max(end, at + 1) if at < len(document.data) else at),
        "severity": severity,
        "code": kind,
        "source": "tilugba",
        "message": message,
    }


def of_the_parser(document: Document) -> list[Json]:
    """The first fault of each statement. If declarations have some, they alone are told: all else
    may hang on them.
    """
    reading = document.reading
    header_end = reading.segments[len(reading.header) - 1].end if reading.header else 0
    found: list[Fault] = []
    for fault in reading.faults():
        if len(found) == MOST or (found and found[0].at < header_end <= fault.at):
            break
        found.append(fault)
    return [of_a_fault(document, fault) for fault in found]


def of_a_fault(document: Document, fault: Fault) -> Json:
    message = "\n".join(text_faults.told(document.reading, fault))
    return diagnostic(
        document, fault.at, fault.at + len(fault.token.text), ERROR, fault.kind, message
    )


def checked(document: Document, program: Program) -> Answer:
    """What the program says of the text, asked once for each text."""
    if document.checked is None:
        grammar = document.reading.grammar
        if grammar is PORTFOLIO:
            document.checked = program.run("check", document.data)
        elif grammar is SCHEDULES:
            document.checked = program.run("expand", document.data)
        else:
            document.checked = program.run(
                "value", document.data, b"label,day,value\n", b"offset,factor\n0,1\n", *NOBODY
            )
    return document.checked


def of_the_program(document: Document, program: Program) -> list[Json]:
    """The fault that the program tells, or the contracts that it refuses, and then warnings."""
    answer = checked(document, program)
    fault = answer.fault
    if fault and isinstance(fault.cause, BadText):
        return [of_a_told_fault(document, fault.cause)]
    if document.reading.fault:
        return of_the_parser(document)
    if document.reading.grammar is SCHEDULES and fault and isinstance(fault.cause, Refusal):
        return [of_a_refusal(document, fault.cause)]
    if (
        document.reading.grammar is not PORTFOLIO
        or answer.status not in (Status.DONE, Status.REFUSED)
    ):
        return []
    verdicts = answer.verdicts()
    found = [of_a_refusal(document, it) for it in verdicts if isinstance(it, Refusal)]
    return (found + list(warnings(document, answer)))[:MOST]


def of_a_told_fault(document: Document, cause: BadText) -> Json:
    """A fault of the program. The parser has the same; if not, the program is right."""
    place = Place(cause.line, cause.column)
    fault = text_faults.fault_at(document.reading, place, cause.kind)
    if fault:
        return of_a_fault(document, fault)
    at = document.reading.source.at(place)
    return diagnostic(document, at, at + 1, ERROR, cause.kind, cause.kind)


def of_a_refusal(document: Document, refusal: Refusal) -> Json:
    """A refusal at its node, up to the end of the node's first line."""
    note = refusals.note_of("", document.reading, refusal)
    at = document.reading.source.at(note.place) if note.place else 0
    end = at + len(document.data[at:].split(b"\n", 1)[0])
    return diagnostic(document, at, end, ERROR, refusal.rule, "\n".join([note.title, *note.lines]))


def warnings(document: Document, answer: Answer) -> Iterator[Json]:
    for warning in warnings_of(Book(document.reading, frozenset()), answer.verdicts()):
        at = document.reading.source.at(warning.place)
        word = document.data[at : at + 64].split(b"\n")[0]
        end = at + len(word.split(b"(")[0].split(b",")[0].split(b";")[0].split(b" ")[0])
        yield diagnostic(document, at, end, WARNING, warning.kind, warning.said)


def failed(stop: Stop) -> Json:
    """Why the program was not asked, for the editor's own line of messages."""
    return {"type": WARNING, "message": f"tilugba: {stop.message}"}


