"""Contracts written for another day: later ones get an `after`, earlier ones are advanced by the
program over fixings.
"""

from __future__ import annotations

from dataclasses import dataclass

from ..program import Program, Status, Stop
from ..tables import records
from ..texts.parts import MOST_DAYS
from ..texts.rewriting import Piece
from .book import NO_FIXINGS, Book, File, asked, book_of
from .merging import with_declarations


@dataclass(frozen=True)
class Moved:
    """A book on a later day, and what was due before it, as flow lines."""

    book: Book
    due: tuple[str, ...] = ()


def judged(program: Program, table: File | None, *books: Book) -> File:
    """The table, or one without rows, of which the program says that each row goes with the
    declarations of one of the books.
    """
    if table is None:
        return File("no fixings", NO_FIXINGS)
    base = books[0].without_contracts()
    for other in books[1:]:
        base = base.rewritten(with_declarations(base, other))
    asked(program, "flows", base.file, table)
    return table


def rows_for(book: Book, table: File) -> File:
    """The rows of a table whose labels the book declares, byte for byte."""
    labels = {it.encode() for it in book.labels}
    header, *rows = records(table.data)
    return File(
        table.name,
        b"".join([ended(header.data), *(ended(it.data) for it in rows if it.fields[0] in labels)]),
    )


def ended(record: bytes) -> bytes:
    """A record with the end of its line."""
    return record if record.endswith((b"\n", b"\r")) else record + b"\n"


def advanced(program: Program, book: Book, table: File, day: int) -> Moved:
    """What is left of a book on a later day by a table, of which the rows count that the book can
    read.
    """
    if day == book.start:
        return Moved(book)
    output = asked(program, "advance", book.file, rows_for(book, table), "--to", str(day))
    return moved(book.name, output)


def moved(name: str, output: bytes) -> Moved:
    """What `advance` or `novate` has printed: the lines that were due, and the book without these
    comments.
    """
    lines = output.decode("utf-8").splitlines(keepends=True)
    due = [line[2:-1] for line in lines if line.startswith("# ")]
    rest = "".join(line for line in lines if not line.startswith("#"))
    return Moved(book_of(File(name, rest.encode())), tuple(due))


def on_day(
    program: Program, book: Book, table: File, day: int
) -> tuple[list[Piece], tuple[str, ...]]:
    """The contracts of a book as they are written for another day, and what was due before that."""
    if book.start <= day:
        left = advanced(program, book, table, day)
        return list(left.book.contracts.values()), left.due
    if book.start - day > MOST_DAYS:
        raise Stop(
            Status.REFUSED,
            f"{book.name} begins {book.start - day:,} days later than the book,"
            f" and `after` has at most {MOST_DAYS:,}",
        )
    before = f"after({book.start - day}, "
    return [it.with_term(before, ")") for it in book.contracts.values()], ()
