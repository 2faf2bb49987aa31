"""What is said of a place: the date of a day, the declaration of a name, the number of a node, and
what `check` says of the contract.
"""

from __future__ import annotations

from collections.abc import Iterator

from ..days import Calendar
from ..program import Acceptance, Program, Status, Stop
from ..texts import trees
from ..texts.grammar import PORTFOLIO
from ..texts.names import NameSet
from ..texts.offers import whole_number
from ..texts.reads import Days, placed
from ..texts.tokens import NUMBER, tokens
from ..texts.trees import Statement, Term
from . import navigation
from .diagnostics import checked
from .documents import Document
from .protocol import Json

# No number of days is greater.
MOST_DAYS = 1_000_000


def hover(document: Document, at: int, program: Program) -> Json | None:
    """What is said of a place, or nothing where nothing is known."""
    number = document.reading.segment_at(at)
    base = document.reading.segments[number].at
    if document.reading.is_broken and number >= len(document.reading.header):
        return None
    statement = document.reading.read(number).statement
    lines = [*name_lines(document, at), *number_lines(document, base, statement, at)]
    if document.reading.fault_of(number) is None and statement.term is not None:
        lines += [
            *node_lines(document, base, statement.term, at), *facts(document, statement, program)
        ]
    return {"contents": {"kind": "markdown", "value": "\n\n".join(lines)}} if lines else None


def name_lines(document: Document, at: int) -> Iterator[str]:
    """The statement that declares a name."""
    name = navigation.name_at(document, at)
    if name is None or isinstance(name.kind, int):
        return
    for base, statement in document.reading.statements():
        if (
            any(it.name == name.text for it in statement.declared)
            and navigation.SETS.get(statement.word) is name.kind
        ):
            if name.kind is not NameSet.CONTRACT:
                yield f"`{written(document, base)}`"
            return


def written(document: Document, base: int) -> str:
    """The tokens of a statement, as they are written but for comments, on one line."""
    reading = document.reading
    end = reading.segments[reading.segment_at(base)].end
    found = [it for it in tokens(reading.text, base, end) if it.text]
    blanks = (" " if one.end < other.at else "" for one, other in zip(found, found[1:]))
    return "".join(it.text + blank for it, blank in zip(found, [*blanks, ""]))


def calendar_of(document: Document) -> Calendar:
    return Calendar(document.reading.declared.origin)


def number_lines(document: Document, base: int, statement: Statement, at: int) -> Iterator[str]:
    """The date of a number of days in a declaration."""
    start = document.reading.declared.start
    for token in tokens(
        document.reading.text, base, document.reading.segments[document.reading.segment_at(at)].end
    ):
        is_here = token.kind == NUMBER and token.at <= at <= token.end and token.text.isdigit()
        days = whole_number(token.text, MOST_DAYS) if is_here else None
        if days is not None and statement.word == "start":
            yield calendar_of(document).told(days)
        elif days is not None and statement.word == "template":
            yield f"{calendar_of(document).told(start + days)}, counted from the start"


def node_lines(document: Document, base: int, root: Term, at: int) -> Iterator[str]:
    """The innermost node round a place: its number, and the days on which it may stand."""
    found = None
    numbers = {term.at: number for number, term in enumerate(root.nodes())}
    for it in placed(root, document.reading.declared):
        if (
            base + it.term.at <= at < base + it.term.end
            and (found is None or it.term.at >= found.term.at)
        ):
            found = it
    if found is None:
        return
    form = "the operation" if found.term.form == trees.OPERATION else f"`{found.term.form}`"
    if found.term.sort == trees.AMOUNT or document.reading.grammar is not PORTFOLIO:
        yield f"node {numbers[found.term.at]}, {form}"
        return
    yield f"node {numbers[found.term.at]}, {form}: {days_told(document, found.days)}"
    if found.term.form == "obs":
        offset = int(found.term.told("offset")[0])
        yield (
            f"reads {found.term.told('label')[0]} of "
            f"{days_told(document, found.days.later(offset))}"
        )
    if found.term.form == "after":
        shift = sum(int(it) for it in found.term.told("days"))
        shift += sum(
            document.reading.declared.names(NameSet.TEMPLATE)[it].days or 0
            for it in found.term.told("template")
        )
        yield f"what is after stands on {days_told(document, found.days.later(shift))}"


def days_told(document: Document, days: Days) -> str:
    start, calendar = document.reading.declared.start, calendar_of(document)
    first, last = calendar.told(start + days.first), calendar.told(start + days.last)
    return first if days.first == days.last else f"from {first} to {last}"


def facts(document: Document, statement: Statement, program: Program) -> Iterator[str]:
    """What `check` says of the contract."""
    if document.reading.grammar is not PORTFOLIO or document.reading.fault:
        return
    try:
        answer = checked(document, program)
    except Stop as stop:
        yield stop.message
        return
    if answer.status not in (Status.DONE, Status.REFUSED):
        return
    for verdict in answer.verdicts():
        if verdict.name == statement.name:
            yield (
                accepted(document, verdict)
                if isinstance(verdict, Acceptance)
                else f"refused by {verdict.rule} at node {verdict.node}"
            )


def accepted(document: Document, verdict: Acceptance) -> str:
    start, calendar = document.reading.declared.start, calendar_of(document)
    first = (
        "it never pays"
        if verdict.start == "always"
        else f"it pays nothing before {calendar.told(start + int(verdict.start))}"
    )
    last = f"nothing from {calendar.told(start + verdict.horizon)} on"
    return f"{verdict.name} is accepted: {first}, at most {verdict.total}, {last}"
