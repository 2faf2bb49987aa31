"""Texts rewritten: tokens replaced, statements taken out, put in or moved with their comments.

Comments above a statement go with it, and so does one behind it on its last line. Those above the
first statement are the head of a text; what is behind the last one is its tail. Texts have one
character for each byte, as a `Reading` has them.
"""

from __future__ import annotations

import re
from collections.abc import Iterable, Iterator
from dataclasses import dataclass, replace
from typing import NamedTuple

from .names import Declared
from .reading import FIRST_TOKEN, Reading

# What belongs to a statement behind its semicolon: the rest of the line, if no token is in it.
REST_OF_LINE = re.compile(r"[ \t\r]*(?:#[^\n]*)?(?:\n|\Z)")


class Edit(NamedTuple):
    """The bytes from a place up to an end, and what stands there instead. With one place for both,
    it is put in there.
    """

    at: int
    end: int
    text: str


def rewritten(text: str, edits: Iterable[Edit], at: int = 0, end: int | None = None) -> str:
    """A part of a text, a character for each byte, with its edits, whose places are those of the
    whole text. No two overlap, and edits of one place stand in their order.
    """
    parts: list[str] = []
    for edit in sorted(edits, key=lambda it: (it.at, it.end)):
        parts += [text[at : edit.at], edit.text]
        at = edit.end
    parts.append(text[at : len(text) if end is None else end])
    return "".join(parts)


@dataclass(frozen=True, slots=True)
class Piece:
    """A statement with its comments: its first word, the names that it declares, and where its term
    is in the text, if it has one.
    """

    word: str
    declared: tuple[Declared, ...]
    text: str
    term: tuple[int, int] | None = None

    @property
    def name(self) -> str:
        """The first name that it declares, or nothing."""
        return self.declared[0].name if self.declared else ""

    def ended(self) -> Piece:
        """The statement with the end of its line."""
        return self if self.text.endswith("\n") else replace(self, text=self.text + "\n")

    def with_term(self, before: str, behind: str) -> Piece:
        """The statement with something put round its term."""
        at, end = self.term or (0, 0)
        edits = [Edit(at, at, before), Edit(end, end, behind)]
        return replace(
            self, text=rewritten(self.text, edits), term=(at, end + len(before) + len(behind))
        )


@dataclass(frozen=True, slots=True)
class Pieces:
    """A text in pieces: the head, the statements, the tail."""

    head: str
    statements: tuple[Piece, ...]
    tail: str

    @property
    def text(self) -> str:
        return "".join([self.head, *(it.text for it in self.statements), self.tail])

    def with_statements(self, statements: Iterable[Piece]) -> Pieces:
        """The text with other statements in the place of its own."""
        return replace(self, statements=tuple(statements))


def behind(statements: list[Piece], number: int, new: Iterable[Piece]) -> list[Piece]:
    """The statements with new ones, on lines of their own, behind the first so many."""
    before = statements[:number]
    found = [it.ended() for it in new]
    if found and before:
        before[-1] = before[-1].ended()
    return [*before, *found, *statements[number:]]


def pieces_of(reading: Reading) -> Pieces:
    """A text without a fault, in pieces that together are the text."""
    text = reading.text
    head = FIRST_TOKEN.match(text).start(1) if reading.segments else 0
    statements = list(statement_pieces(reading, head))
    end = head + sum(len(it.text) for it in statements)
    return Pieces(text[:head], tuple(statements), text[end:])


def statement_pieces(reading: Reading, at: int) -> Iterator[Piece]:
    """The statements with their comments, from the end of the head on."""
    text = reading.text
    for number, segment in enumerate(reading.segments[:-1]):
        rest = REST_OF_LINE.match(text, segment.end)
        end = rest.end() if rest else segment.end
        statement = reading.read(number).statement
        term = statement.term and (
            segment.at + statement.term.at - at,
            segment.at + statement.term.end - at,
        )
        yield Piece(statement.word, tuple(statement.declared), text[at:end], term)
        at = end
