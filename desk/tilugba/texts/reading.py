"""Reads a whole text: its declarations, its definitions one by one, and its faults.

A definition, which is a contract, code or a plan, is read apart from the others, and only when it
is asked for. So what was read of one holds as long as its own text and the declarations stay
(`Memory`).
"""

from __future__ import annotations

import re
from bisect import bisect_right
from collections.abc import Iterator
from functools import cached_property
from typing import NamedTuple

from . import tokens
from .grammar import GRAMMARS, PORTFOLIO, Grammar
from .machine import Fault, Machine
from .names import Declarations, Declared, NameSet
from .offers import Offers
from .parts import Part
from .tokens import GAP, Source, Token
from .trees import Statement

# The reserved words with which statements begin.
BEGINNINGS = (
    "portfolio payoff amounts origin start party asset num flag template contract code".split()
)


def border() -> re.Pattern[str]:
    """Where a statement ends: behind its semicolon, or before a word with which another one begins.
    Comments are passed over.

    Each branch begins with a letter, by which a text is searched faster than by what stands before
    a word.
    """
    words = [rf"{word[0]}(?<=\b{word[0]}){word[1:]}\b" for word in BEGINNINGS]
    return re.compile("|".join([r"#[^\n]*", ";", *words]), re.ASCII)


BORDER = border()
FIRST_TOKEN = re.compile(GAP + "([A-Za-z_][A-Za-z0-9_]*)?")
BEGINNING = re.compile(GAP + "([A-Za-z_][A-Za-z0-9_]*)" + GAP + "([A-Za-z_][A-Za-z0-9_]*)?")
MOST_REMEMBERED = 3
NO_TOKEN = Token(tokens.STRAY, "", 0)


class Segment(NamedTuple):
    """The bytes of a statement, with the gap before it."""

    at: int
    end: int


class Read(NamedTuple):
    """What was read of a statement: its tree, its first fault with a place in the segment, and
    whether a token is missing at its end.
    """

    statement: Statement
    fault: Fault | None
    missing: Offers | None = None


class Memory:
    """What was read of definitions, by the text of each, under the last few declarations that a
    text had.
    """

    def __init__(self) -> None:
        self.under: dict[str, dict[str, Read]] = {}

    def read_under(self, declarations: str) -> dict[str, Read]:
        """What was read under these declarations. Of those that were not asked for the longest, it
        is forgotten.
        """
        found = self.under.pop(declarations, {})
        while len(self.under) >= MOST_REMEMBERED:
            del self.under[next(iter(self.under))]
        self.under[declarations] = found
        return found


def segments(text: str) -> list[Segment]:
    """The statements of a text. The last one is what stands behind the last semicolon."""
    found: list[Segment] = []
    at = 0
    for border in BORDER.finditer(text):
        written = border[0]
        if written[0] == "#":
            continue
        end = border.end() if written == ";" else border.start()
        if end > at and not (written != ";" and FIRST_TOKEN.match(text, at).end() == border.end()):
            found.append(Segment(at, end))
            at = end
    found.append(Segment(at, len(text)))
    return found


def grammar_of(text: str) -> Grammar:
    """The grammar that the first word of a text names, or that of portfolios."""
    word = FIRST_TOKEN.match(text)[1]
    return next((it for it in GRAMMARS if it.word == word), PORTFOLIO)


class Reading:
    """A text as it is read by a grammar."""

    def __init__(
        self, data: bytes, grammar: Grammar | None = None, memory: Memory | None = None
    ) -> None:
        self.source = Source(data)
        self.grammar = grammar or grammar_of(self.source.text)
        self.segments = segments(self.source.text)
        self.declared = Declarations()
        self.memory = memory if memory is not None else Memory()
        self.remembered: dict[str, Read] = {}
        # The first and the last definition, which are not remembered by their text.
        self.at_ends: dict[int, Read] = {}
        self.header: list[Read] = []
        self.stack: list[Part] = list(reversed(self.grammar.text))
        self.is_broken = False
        self.read_header()

    @property
    def text(self) -> str:
        return self.source.text

    def slice(self, number: int) -> str:
        segment = self.segments[number]
        return self.text[segment.at : segment.end]

    # ---- the declarations

    def read_header(self) -> None:
        """Reads the statements before the first definition. Behind one that is at fault it goes on,
        if that was one of the lines.
        """
        for number in range(len(self.segments)):
            if (
                FIRST_TOKEN.match(self.text, self.segments[number].at)[1]
                in self.grammar.definitions
            ):
                break
            before = list(self.stack)
            read = self.read_segment(number, self.declared, self.stack)
            self.header.append(read)
            if read.fault or read.missing:
                self.is_broken = number < 2
                self.stack = before
            if self.is_broken:
                break
        text = self.text[: self.segments[len(self.header) - 1].end] if self.header else ""
        self.remembered = self.memory.read_under(text)

    def read_segment(self, number: int, declared: Declarations, stack: list[Part]) -> Read:
        """Reads a statement from a stack on, which it changes."""
        written = self.slice(number)
        found = list(tokens.tokens(written))
        if number < len(self.segments) - 1 and found[-1].kind == tokens.END:
            found.pop()
        machine = Machine(declared, stack)
        machine.statement.word = found[0].text if found else ""
        fault = machine.read(found)
        if fault or not found or found[-1].text in (";", ""):
            return Read(machine.statement, fault)
        missing = machine.read([NO_TOKEN])
        return Read(machine.statement, None, missing.offers if missing else None)

    # ---- the definitions

    @property
    def definitions(self) -> range:
        """The numbers of the segments behind the declarations; the last one has no statement in a
        text without a fault.
        """
        return range(0) if self.is_broken else range(len(self.header), len(self.segments))

    def read(self, number: int) -> Read:
        """What a segment says; a definition is read when it is first asked for."""
        if number < len(self.header):
            return self.header[number]
        # What may stand before the first definition is more than before the others, and more is
        # expected of the last segment.
        if number == len(self.header) or number == len(self.segments) - 1:
            if number not in self.at_ends:
                self.at_ends[number] = self.read_definition(number)
            return self.at_ends[number]
        written = self.slice(number)
        read = self.remembered.get(written)
        if read is None:
            read = self.remembered[written] = self.read_definition(number)
        return read

    def read_definition(self, number: int) -> Read:
        stack = self.stack if number == len(self.header) else list(reversed(self.grammar.further))
        kept = self.declared.sets[NameSet.CONTRACT]
        self.declared.sets[NameSet.CONTRACT] = {}
        try:
            return self.read_segment(number, self.declared, list(stack))
        finally:
            self.declared.sets[NameSet.CONTRACT] = kept

    @cached_property
    def defined(self) -> dict[str, int]:
        """The names of the definitions, each with the segment that is the first of that name."""
        names: dict[str, int] = {}
        for number in self.definitions:
            found = BEGINNING.match(self.text, self.segments[number].at)
            if (
                found
                and found[1] in self.grammar.definitions
                and found[2]
                and found[2] not in tokens.RESERVED
            ):
                names.setdefault(found[2], number)
        return names

    def definition(self, name: str) -> int | None:
        """The segment of a definition."""
        return self.defined.get(name)

    # ---- what may stand at a place

    def segment_at(self, at: int) -> int:
        """The number of the segment in which a byte is; between two it is the second."""
        return max(bisect_right(self.segments, at, key=lambda it: it.at) - 1, 0)

    def offers_at(self, at: int) -> Offers:
        """What may stand at a byte, by what stands before it in its statement."""
        number = self.segment_at(at)
        if self.is_broken and number >= len(self.header):
            return Offers()
        declared, stack = self.state_before(number)
        before = [
            token
            for token in tokens.tokens(self.text, self.segments[number].at, at)
            if token.kind != tokens.END
        ]
        machine = Machine(declared, stack)
        fault = machine.read([*before, NO_TOKEN])
        return fault.offers if fault and fault.token is NO_TOKEN else Offers()

    def state_before(self, number: int) -> tuple[Declarations, list[Part]]:
        """The declarations and the stack where a segment begins."""
        if number > len(self.header):
            return self.declared_of(number), list(reversed(self.grammar.further))
        declared, stack = Declarations(), list(reversed(self.grammar.text))
        for earlier in range(min(number, len(self.header))):
            before = list(stack)
            read = self.read_segment(earlier, declared, stack)
            stack = before if read.fault or read.missing else stack
        return declared, stack

    def declared_of(self, number: int) -> Declarations:
        """The declarations, with the names of the definitions before a segment."""
        before = {name: Declared(name, 0) for name, first in self.defined.items() if first < number}
        return self.declared.with_names(NameSet.CONTRACT, before)

    # ---- faults

    def fault_of(self, number: int) -> Fault | None:
        """The first fault in a segment, or at the token behind it, with its place in the text."""
        read, base = self.read(number), self.segments[number].at
        if number >= len(self.header) and (twice := self.twice_in(number, read)):
            return twice
        if read.fault:
            token = read.fault.token
            return Fault(
                read.fault.kind,
                token._replace(at=base + token.at),
                self.offers_in(number, read.fault.offers),
            )
        if read.missing:
            behind = next(tokens.tokens(self.text, self.segments[number].end))
            return Fault("syntax", behind, self.offers_in(number, read.missing))
        return None

    def twice_in(self, number: int, read: Read) -> Fault | None:
        """The fault of a name that an earlier definition has."""
        if not read.statement.declared:
            return None
        declared = read.statement.declared[0]
        if self.defined.get(declared.name, number) == number:
            return None
        token = Token(tokens.NAME, declared.name, self.segments[number].at + declared.at)
        return Fault("twice", token, self.new_names(number))

    def offers_in(self, number: int, offers: Offers) -> Offers:
        """What may stand in a segment, by what was read of it apart from the others."""
        return (
            self.new_names(number)
            if number >= len(self.header) and offers.new is NameSet.CONTRACT
            else offers
        )

    def new_names(self, number: int) -> Offers:
        """What may stand where a definition has its name."""
        before = frozenset(name for name, first in self.defined.items() if first < number)
        return Offers(new=NameSet.CONTRACT, taken=before)

    def faults(self) -> Iterator[Fault]:
        """The first fault of each statement that has one, in order. The first of them is the fault
        of the text.
        """
        if self.source.no_utf8_at is not None:
            yield Fault("utf8", Token(tokens.STRAY, "", self.source.no_utf8_at), Offers())
            return
        for number in range(len(self.header) if self.is_broken else len(self.segments)):
            if fault := self.fault_of(number):
                yield fault

    @cached_property
    def fault(self) -> Fault | None:
        """The fault of the text, as the program tells it, with what may stand there."""
        return next(self.faults(), None)

    def statements(self) -> Iterator[tuple[int, Statement]]:
        """The statements, each with the place from which its places count."""
        for number in range(len(self.header) if self.is_broken else len(self.segments)):
            yield self.segments[number].at, self.read(number).statement


