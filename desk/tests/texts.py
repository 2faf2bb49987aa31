"""The example texts of the four grammars, random edits of them, and what the program says of a
text.
"""

from __future__ import annotations

import os
import random
import re
from collections.abc import Iterator, Sequence
from dataclasses import dataclass
from functools import cache
from pathlib import Path

from tests.support import CASES, EXAMPLES, TOP, the_program
from tilugba.texts import tokens
from tilugba.texts.grammar import CODE, PORTFOLIO, SCHEDULES, Grammar
from tilugba.texts.names import NameSet
from tilugba.texts.reading import Reading, grammar_of
from tilugba.texts.tokens import Place

PLAN_WORDS = "schedules leg swap guarded of from to first every times against until covers".split()
WORDS = sorted(tokens.RESERVED) + PLAN_WORDS
NUMBERS = ("0", "1", "7", "1.5", "0.25", "99999", "100001")
NEW_NAME, DATE = "A_new_name", "2026-01-05"
FAULT = re.compile(rb"fault text ([a-z0-9]+) line ([0-9]+) column ([0-9]+)\n")
# What an edit puts in: tokens, and bytes that are none.
TOKENS = [
    *WORDS,
    *tokens.MARKS,
    *NUMBERS,
    NEW_NAME,
    DATE,
    "1900-13-01",
    "00",
    "1.0000000000000000000000000001",
    "9" * 40,
]
BYTES = [
    b" ",
    b"\n",
    b"\t",
    b"#",
    b"@",
    b'"',
    b".",
    b"-",
    b"!",
    b"_",
    b"x",
    b"1",
    b"\xc3\xa9",
    b"\xff",
    b"\xef\xbb\xbf",
    b"\0",
    b"\r",
]
OTHER_NAMES = ["--at", "0", "--from", "zz", "--to", "zz", "--asset", "zz"]


@dataclass(frozen=True)
class Told:
    """The fault of a text: its kind and place."""

    kind: str
    place: Place


class Judge:
    """Asks the program for the fault of a text, many times a second: the text goes into one file,
    and the answer into another.
    """

    def __init__(self, folder: Path) -> None:
        self.program = os.fspath(the_program().path)
        self.text, self.out = folder / "text", os.open(folder / "out", os.O_RDWR | os.O_CREAT)
        empty, curve = folder / "empty.csv", folder / "curve.csv"
        empty.write_text("label,day,value\n")
        curve.write_text("offset,factor\n0,1\n")
        self.words = {
            PORTFOLIO: ["check", str(self.text)],
            CODE: ["value", str(self.text), str(empty), str(curve), *OTHER_NAMES],
            SCHEDULES: ["expand", str(self.text)],
        }
        # What was asked of the ends of a text, by the text before them.
        self.asked: dict[tuple[str, bytes], dict[str, Told | None]] = {}

    def fault(self, text: bytes, grammar: Grammar) -> Told | None:
        self.text.write_bytes(text)
        os.ftruncate(self.out, 0)
        os.lseek(self.out, 0, os.SEEK_SET)
        actions = [(os.POSIX_SPAWN_DUP2, self.out, 1)]
        process = os.posix_spawn(
            self.program, [self.program, *self.words[grammar]], {}, file_actions=actions
        )
        status = os.waitstatus_to_exitcode(os.waitpid(process, 0)[1])
        if status != 6:
            return None
        found = FAULT.fullmatch(os.pread(self.out, 200, 0))
        return Told(found[1].decode(), Place(int(found[2]), int(found[3])))

    def fault_with(self, before: bytes, end: str, grammar: Grammar) -> Told | None:
        """The fault of a text with an end. Many edits leave the same before their fault, so each is
        asked once.
        """
        known = self.asked.setdefault((grammar.name, before), {})
        if end not in known:
            known[end] = self.fault(before + end.encode(), grammar)
        return known[end]


@dataclass(frozen=True)
class Example:
    """A text of a grammar."""

    name: str
    data: bytes
    grammar: Grammar


@cache
def examples() -> tuple[Example, ...]:
    """All texts of the examples and of the tests' cases, but for those of more than 30,000 bytes.
    """
    folders = [EXAMPLES, CASES, TOP / "desk" / "tests" / "data"]
    paths = [path for folder in folders for path in sorted(folder.rglob("*")) if path.is_file()]
    found: dict[bytes, Example] = {}
    for path in paths:
        data = path.read_bytes()
        text = data.decode("latin-1")
        word = re.search(r"(?m)^[^#\n]*?\b(portfolio|payoff|schedules)\b", text)
        if len(data) <= 30_000 and word and grammar_of(text).word == word[1]:
            found.setdefault(data, Example(str(path.relative_to(TOP)), data, grammar_of(text)))
    return (*found.values(), *(deep_code(depth) for depth in (398, 400)))


def deep_code(depth: int) -> Example:
    """Code with so many terms round the innermost, of which an expression is one."""
    head = "payoff 1; amounts 2; party A; asset E; template T = 1; code c = "
    text = head + "cut(0 + T, " * depth + "scale(neg(1), none)" + ")" * depth + ";"
    return Example(f"code of depth {depth}", text.encode(), CODE)


def edited(data: bytes, chance: random.Random) -> bytes:
    """A text with one to three random edits."""
    for _ in range(chance.choice((1, 1, 1, 2, 3))):
        data = chance.choice((edit_tokens, edit_tokens, edit_tokens, edit_bytes, edit_names, cut))(
            data, chance
        )
    return data


def found_tokens(data: bytes) -> list[tokens.Token]:
    return list(tokens.tokens(data.decode("latin-1")))


def replaced(data: bytes, token: tokens.Token, written: str) -> bytes:
    return data[: token.at] + written.encode("latin-1") + data[token.end :]


def edit_tokens(data: bytes, chance: random.Random) -> bytes:
    """Takes a token out, puts one in, changes one, doubles one, or lets two change places."""
    found = found_tokens(data)
    number = chance.randrange(len(found))
    token, other = found[number], found[min(number + 1, len(found) - 1)]
    written = chance.choice(TOKENS) if chance.random() < 0.7 else chance.choice(found).text
    how = chance.randrange(5)
    if how == 0:
        return replaced(data, token, "")
    if how == 1:
        return replaced(data, token, f" {written} {token.text}")
    if how == 2:
        return replaced(data, token, written)
    if how == 3:
        return replaced(data, token, f"{token.text} {token.text}")
    between = data[token.end : other.at].decode("latin-1")
    return (
        data[: token.at] + (other.text + between + token.text).encode("latin-1") + data[other.end :]
    )


def edit_bytes(data: bytes, chance: random.Random) -> bytes:
    """Takes some bytes out, or puts one in."""
    at = chance.randrange(len(data) + 1)
    if chance.random() < 0.5:
        return data[:at] + data[at + chance.choice((1, 1, 2, 9)) :]
    return data[:at] + chance.choice(BYTES) + data[at:]


def edit_names(data: bytes, chance: random.Random) -> bytes:
    """Gives a name of the text to another place of a name, or a number to that of a number."""
    kind = chance.choice((tokens.NAME, tokens.NAME, tokens.NUMBER))
    found = [token for token in found_tokens(data) if token.kind == kind]
    return replaced(data, chance.choice(found), chance.choice(found).text) if found else data


def cut(data: bytes, chance: random.Random) -> bytes:
    """Takes what is behind some place away, or a statement out."""
    if chance.random() < 0.5:
        return data[: chance.randrange(len(data) + 1)]
    ends = [token.end for token in found_tokens(data) if token.text == ";"]
    if len(ends) < 2:
        return data
    number = chance.randrange(len(ends) - 1)
    return data[: ends[number]] + data[ends[number + 1] :]


def candidates(reading: Reading) -> Iterator[str]:
    """All words, marks, names that are declared or bound, a new name, numbers with and without a
    point, a date, and the end.
    """
    names = dict.fromkeys(
        name for kind in NameSet for name in some(list(reading.declared.names(kind)))
    )
    names |= dict.fromkeys(some(list(reading.defined)))
    if reading.fault and "bound names" in reading.fault.offers.names:
        names |= dict.fromkeys(reading.fault.offers.names["bound names"])
    yield from WORDS
    yield from tokens.MARKS
    yield from (name for name in names if name not in PLAN_WORDS)
    yield from NUMBERS
    yield from (NEW_NAME, DATE, "")


def some(names: Sequence[str]) -> Sequence[str]:
    """The first and the last of many names."""
    return names if len(names) <= 8 else [*names[:4], *names[-4:]]


def token_of(written: str) -> tokens.Token:
    return next(tokens.tokens(written))
