"""What happens to a book from one day to the next, as it is kept: words, and the files that they
name.
"""

from __future__ import annotations

from collections.abc import Iterator
from dataclasses import dataclass

from ..program import Program, Status, Stop
from . import changes
from .book import Book, File, asked, book_of
from .changes import Changed
from .flow_lines import by_day
from .moving import judged, moved, rows_for

BEGIN, ADVANCE, NOVATE, ADD, AMEND, DROP, PRUNE, JOIN, CORRECT = (
    "begin", "advance", "novate", "add", "amend", "drop", "prune", "join", "correct",
)  # fmt: skip
# The names of an event's files where it is kept.
DEALS, OTHER, TABLE = "deals.txt", "other.txt", "table.csv"
TEXTS = {ADD: DEALS, AMEND: DEALS, JOIN: OTHER}


@dataclass(frozen=True)
class Event:
    """A change of a book: its words, with names for its files; deals or another book; a table of
    fixings.
    """

    words: tuple[str, ...]
    text: File | None = None
    table: File | None = None

    @property
    def kind(self) -> str:
        return self.words[0]

    @property
    def takes_table(self) -> bool:
        return self.kind in (ADVANCE, NOVATE, ADD, AMEND, JOIN)

    def __str__(self) -> str:
        return " ".join(self.words)

    def files(self) -> Iterator[File]:
        """Its files under the names by which they are kept."""
        if self.text:
            yield File(TEXTS[self.kind], self.text.data)
        if self.table:
            yield File(TABLE, self.table.data)

    def other_book(self) -> Book | None:
        """The deals, or the other book."""
        return book_of(self.text) if self.text else None


def event(kind: str, *words: str, text: File | None = None, table: File | None = None) -> Event:
    """An event, whose files stand before its other words."""
    files = [TEXTS[kind]] if text else []
    return Event((kind, *files, *([TABLE] if table else []), *words), text, table)


def happens(program: Program, book: Book, it: Event, table: File | None) -> Changed:
    """The book after an event by a table, each of whose labels the book or the event's own book
    declares.
    """
    other = it.other_book()
    if it.kind in (ADVANCE, NOVATE):
        return moves(program, book, it, judged(program, table, book))
    if other and it.kind == ADD:
        return changes.added(program, book, other, table)
    if other and it.kind == AMEND:
        return changes.amended(program, book, other, table)
    if other and it.kind == JOIN:
        return changes.united(program, book, other, table)
    if it.kind == DROP:
        return changes.dropped(book, it.words[1:])
    if it.kind == PRUNE:
        return changes.pruned(book)
    raise Stop(Status.DESK, f"no book has an event {it}")


def moves(program: Program, book: Book, it: Event, table: File) -> Changed:
    """The book after `advance` or `novate`, by the words of the event behind its table."""
    output = asked(program, it.kind, book.file, rows_for(book, table), *it.words[2:])
    left = moved(book.name, output)
    return Changed(left.book, tuple(by_day(left.due, book.calendar)))
