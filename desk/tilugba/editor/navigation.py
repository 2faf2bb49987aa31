"""Where names are declared and used, and the outline of a text."""

from __future__ import annotations

from collections.abc import Iterator
from dataclasses import dataclass

from ..texts.names import NameSet
from ..texts.tokens import tokens
from ..texts.trees import Argument, Statement, Term
from .documents import Document
from .protocol import Json

ROLES = {
    "asset": NameSet.ASSET,
    "payer": NameSet.PARTY,
    "receiver": NameSet.PARTY,
    "label": NameSet.LABEL,
    "template": NameSet.TEMPLATE,
}
SETS = {
    "party": NameSet.PARTY,
    "asset": NameSet.ASSET,
    "num": NameSet.LABEL,
    "flag": NameSet.LABEL,
    "template": NameSet.TEMPLATE,
    "contract": NameSet.CONTRACT,
    "code": NameSet.CONTRACT,
    "leg": NameSet.CONTRACT,
    "swap": NameSet.CONTRACT,
    "guarded": NameSet.CONTRACT,
}
# What the protocol calls what a statement declares.
SYMBOLS = {"party": 5, "asset": 22, "num": 13, "flag": 17, "template": 14}
FUNCTION = 12


@dataclass(frozen=True)
class Name:
    """A name at a place: its set, or the place of what binds it."""

    text: str
    at: int
    kind: NameSet | int
    is_declared: bool = False

    @property
    def end(self) -> int:
        return self.at + len(self.text)

    def is_same(self, other: Name) -> bool:
        return self.kind == other.kind and self.text == other.text


def names_of(document: Document) -> Iterator[Name]:
    """The names of a text, in the order of its statements."""
    for base, statement in document.reading.statements():
        yield from names_in(base, statement)


def names_in(base: int, statement: Statement) -> Iterator[Name]:
    kind = SETS.get(statement.word)
    for declared in statement.declared:
        if kind:
            yield Name(declared.name, base + declared.at, kind, is_declared=True)
    for argument in statement.arguments:
        if argument.role in ROLES:
            yield Name(argument.text, base + argument.at, ROLES[argument.role])
    for term in statement.term.nodes() if statement.term else ():
        for argument in term.arguments:
            if name := name_of(base, term, argument):
                yield name


def name_of(base: int, term: Term, argument: Argument) -> Name | None:
    if argument.role in ROLES:
        return Name(argument.text, base + argument.at, ROLES[argument.role])
    if argument.role == "variable":
        return Name(argument.text, base + argument.at, base + term.binder)
    if argument.role == "binder":
        return Name(argument.text, base + argument.at, base + argument.at, is_declared=True)
    return None


def name_at(document: Document, at: int) -> Name | None:
    """The name at a place or before it."""
    return next((it for it in names_of(document) if it.at <= at <= it.end), None)


def definition(document: Document, at: int) -> Json | None:
    """Where the name at a place is declared or bound."""
    name = name_at(document, at)
    if name is None:
        return None
    found = next((it for it in names_of(document) if it.is_declared and it.is_same(name)), None)
    return location(document, found) if found else None


def references(document: Document, at: int, with_declaration: bool) -> list[Json]:
    """Where the name at a place is used."""
    name = name_at(document, at)
    if name is None:
        return []
    same = [it for it in names_of(document) if it.is_same(name)]
    return [location(document, it) for it in same if with_declaration or not it.is_declared]


def location(document: Document, name: Name) -> Json:
    return {"uri": document.uri, "range": document.range(name.at, name.end)}


def outline(document: Document) -> list[Json]:
    """What the statements declare, each with the bytes of its statement."""
    found = []
    segments = document.reading.segments
    ends = {segment.at: segment.end for segment in segments}
    for base, statement in document.reading.statements():
        for declared in statement.declared:
            at = base + declared.at
            is_alone = len(statement.declared) == 1
            whole = document.range(
                at if not is_alone else start_of(document, base),
                ends[base] if is_alone else at + len(declared.name),
            )
            found.append(
                {
                    "name": declared.name,
                    "detail": statement.word,
                    "kind": SYMBOLS.get(statement.word, FUNCTION),
                    "range": whole,
                    "selectionRange": document.range(at, at + len(declared.name)),
                }
            )
    return found


def start_of(document: Document, base: int) -> int:
    """Where the first token of a statement begins."""
    return next(tokens(document.reading.text, base)).at
