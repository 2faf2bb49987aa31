"""The tokens of a text, and places in it.

A text is looked at as one character a byte, so a place counts bytes, as the program does. Tokens
are ASCII; other bytes stand in comments alone.
"""

from __future__ import annotations

import re
from bisect import bisect_right
from collections.abc import Iterator
from functools import cached_property
from itertools import accumulate
from typing import NamedTuple

WORD, NAME, NUMBER, DATE, MARK, END, STRAY = (
    "word", "name", "number", "date", "mark", "end", "stray"
)

RESERVED = frozenset(
    "portfolio payoff amounts origin start party asset num flag in template contract code zero pay "
    "both scale after let if within then else true false obs neg not min max widen round div acc "
    "none add loop upto cut model half_even half_away floor ceil".split()
)
MARKS = (";", ",", ":", "=", "(", ")", "+", "-", "*", "<", "<=", ">", ">=", "!=", "&", "|", "..")
BYTE_ORDER_MARK = b"\xef\xbb\xbf"

GAP = r"[ \t\r\n]*(?:#[^\n]*[ \t\r\n]*)*"
# What follows a gap: a token, the end, or a byte at which no token begins. A word has at most 64
# bytes.
TOKEN = re.compile(
    GAP + r"(?:(?P<word>[A-Za-z_][A-Za-z0-9_]{0,63}(?![A-Za-z0-9_]))"
    r"|(?P<date>[0-9]{4}-[0-9]{2}-[0-9]{2}(?![0-9]))|(?P<number>[0-9]+(?:[.][0-9]+)?)"
    r"|(?P<mark>[<>!]=|[.][.]|[-;,:=()+*<>&|])|(?P<end>\Z)|(?P<stray>))"
)
# The kinds by the groups of the pattern, from 1.
KINDS = ("", WORD, DATE, NUMBER, MARK, END, STRAY)


class Token(NamedTuple):
    """A token: its kind, its text, and the place of its first byte. The end and a stray byte have
    no text.
    """

    kind: str
    text: str
    at: int

    @property
    def end(self) -> int:
        return self.at + len(self.text)


def tokens(text: str, at: int = 0, end: int | None = None) -> Iterator[Token]:
    """The tokens of a part of a text, up to its end or to a byte at which none begins, which is the
    last one.
    """
    # A long text is mostly read here, so a token is made without a call of its own.
    make = tuple.__new__
    for found in TOKEN.finditer(text, at, len(text) if end is None else end):
        group = found.lastindex
        written = found[group]
        kind = NAME if group == 1 and written not in RESERVED else KINDS[group]
        yield make(Token, (kind, written, found.start(group)))
        if kind is STRAY or kind is END:
            return


class Place(NamedTuple):
    """A line and a column, both from 1, the column in bytes."""

    line: int
    column: int


class Source:
    """A text as bytes, and its lines."""

    def __init__(self, data: bytes) -> None:
        self.data = data

    @cached_property
    def text(self) -> str:
        """The text with a character for each byte."""
        return self.data.decode("latin-1")

    @cached_property
    def starts(self) -> list[int]:
        """Where each line begins."""
        lengths = map(len, self.data.split(b"\n")[:-1])
        return [at + number for number, at in enumerate(accumulate(lengths, initial=0))]

    @cached_property
    def no_utf8_at(self) -> int | None:
        """The first byte behind the longest prefix that is UTF-8, if there is one."""
        try:
            self.data.decode("utf-8")
        except UnicodeDecodeError as error:
            return error.start
        return None

    def place(self, at: int) -> Place:
        line = bisect_right(self.starts, at)
        return Place(line, at - self.starts[line - 1] + 1)

    def at(self, place: Place) -> int:
        """The byte at a place; one behind the end of its line is that end."""
        if place.line > len(self.starts):
            return len(self.data)
        start = self.starts[place.line - 1]
        end = self.starts[place.line] - 1 if place.line < len(self.starts) else len(self.data)
        return min(start + place.column - 1, end)

    def line(self, number: int) -> bytes:
        """A line without its line end."""
        start = self.starts[number - 1]
        end = self.starts[number] if number < len(self.starts) else len(self.data)
        return self.data[start:end].rstrip(b"\r\n")
