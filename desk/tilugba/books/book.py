"""A portfolio as a book that is changed: its text, its contracts, runs of the program on it.

What is wrong ends a command by `Told`, which has the lines of an explanation, or by a `Stop` of one
line.
"""

from __future__ import annotations

import os
from collections.abc import Iterable, Iterator
from dataclasses import dataclass, replace
from functools import cached_property

from ..days import Calendar
from ..files import read_file
from ..program import Program, Status, Stop
from ..texts.grammar import PORTFOLIO
from ..texts.names import Declarations, NameSet
from ..texts.reading import Reading
from ..texts.rewriting import Piece, Pieces, pieces_of

NO_FIXINGS = b"label,day,value\n"


class Told(Stop):
    """A fault with the lines that explain it."""

    def __init__(self, status: int, lines: Iterable[str]) -> None:
        self.lines = list(lines)
        super().__init__(status, self.lines[0])


@dataclass(frozen=True)
class File:
    """The bytes of a file, and its name, by which faults speak of it."""

    name: str
    data: bytes


def file_of(path: str | os.PathLike[str]) -> File:
    return File(os.fspath(path), read_file(os.fspath(path)))


@dataclass(frozen=True)
class Book:
    """A portfolio without a fault of its text."""

    file: File

    @property
    def name(self) -> str:
        return self.file.name

    @cached_property
    def reading(self) -> Reading:
        return Reading(self.file.data, PORTFOLIO)

    @cached_property
    def pieces(self) -> Pieces:
        return pieces_of(self.reading)

    @property
    def declared(self) -> Declarations:
        return self.reading.declared

    @property
    def start(self) -> int:
        return self.declared.start

    @property
    def calendar(self) -> Calendar:
        return Calendar(self.declared.origin)

    @cached_property
    def contracts(self) -> dict[str, Piece]:
        """The contracts by name, in the order of the file."""
        return {it.name: it for it in self.pieces.statements if it.word == "contract"}

    @property
    def labels(self) -> set[str]:
        return set(self.declared.names(NameSet.LABEL))

    def rewritten(self, pieces: Pieces) -> Book:
        """The book with another text."""
        return book_of(File(self.name, pieces.text.encode("latin-1")))

    def renamed(self, name: str) -> Book:
        """The book under another name in faults."""
        return replace(self, file=replace(self.file, name=name))

    def without_contracts(self) -> Book:
        """The declarations alone."""
        kept = [it for it in self.pieces.statements if it.word != "contract"]
        return self.rewritten(self.pieces.with_statements(kept))

    def terms(self) -> Iterator[tuple[str, str]]:
        """The contracts by name, each with the first word of its term."""
        for _, statement in self.reading.statements():
            if statement.word == "contract" and statement.term:
                yield statement.name, statement.term.form


def book_of(file: File) -> Book:
    """The book of a file; a fault of the text ends the command."""
    book = Book(file)
    if fault := book.reading.fault:
        from ..explanations import text_faults

        raise Told(Status.TEXT, text_faults.note_of_fault(file.name, book.reading, fault).told())
    return book


def read_book(path: str | os.PathLike[str]) -> Book:
    return book_of(file_of(path))


def near(name: str, known: Iterable[str]) -> str:
    """What is said of a name that is not known: the one that is perhaps meant, if there is one."""
    from ..command_line import nearest

    found = nearest(name, list(known))
    return f"; is {found} meant?" if found else ""


def asked(program: Program, command: str, *words: str | File) -> bytes:
    """What a run of the program prints. A fault ends the command and is explained, by the names of
    the files.
    """
    files = [it for it in words if isinstance(it, File)]
    given: list[str | bytes] = [it.data if isinstance(it, File) else it for it in words]
    answer = program.run(command, *given)
    if answer.status == Status.DONE:
        return answer.output
    from ..explanations.explaining import lines_of

    named = [command, *(it.name if isinstance(it, File) else it for it in words)]
    kept = {it.name: it.data for it in files}
    raise Told(answer.status, lines_of(named, program, answer, kept))
