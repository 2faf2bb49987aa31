"""The folder in which a book is kept: a folder for each step, which is never changed.

A step has the file `event` with its words, a word on a line, the files that these name, the book
behind it, and what was due in it. A correction has what is gone and what is new, and in `replayed`
the table, the book and the due lines of each step that it made anew.
"""

from __future__ import annotations

import re
from dataclasses import dataclass, field, replace
from pathlib import Path

from .. import files
from ..files import read_file
from ..program import Status, Stop, reason_of
from .book import Book, File, book_of
from .events import CORRECT, TABLE, TEXTS, Event

EVENT, BOOK, DUE, IDS, CORRECTIONS, REPLAYED = (
    "event",
    "book.txt",
    "due.csv",
    "ids.csv",
    "corrections.csv",
    "replayed",
)
STEP = re.compile(r"[0-9]{4,}")


@dataclass(frozen=True)
class Step:
    """A step as the last correction leaves it: its event, the table that it was made with, what was
    due, and the book behind it.
    """

    number: int
    event: Event
    table: File | None
    due: tuple[str, ...]
    book: File

    def day(self) -> int:
        """The start of the book behind it."""
        return book_of(self.book).start

    def contents(self) -> dict[str, bytes]:
        """The files that a correction may make anew."""
        found = {BOOK: self.book.data, DUE: due_bytes(self.due)}
        return found | {TABLE: self.table.data} if self.table else found


@dataclass(frozen=True)
class Kept:
    """A folder: its steps, how many folders it has for them and for corrections, and the table of
    ids.
    """

    path: Path
    steps: tuple[Step, ...] = ()
    count: int = 0
    ids: File | None = None
    places: dict[int, int] = field(default_factory=dict)

    @property
    def last(self) -> Step:
        return self.steps[-1]

    def book(self) -> Book:
        """The book of today."""
        return book_of(self.last.book)

    def keep(self, contents: dict[str, bytes]) -> None:
        """Makes the folder of a further step, whole at once."""
        path = self.path.resolve()
        files.new_folder(path / f"{self.count:04}", contents, path.parent)


def due_bytes(due: tuple[str, ...]) -> bytes:
    return "".join(f"{line}\n" for line in due).encode()


def event_bytes(event: Event) -> bytes:
    return "".join(f"{word}\n" for word in event.words).encode()


def numbers_of(path: Path) -> list[str]:
    """The names of the steps in a folder, in their order; no step is missing."""
    try:
        names = sorted((it.name for it in path.iterdir() if STEP.fullmatch(it.name)), key=int)
    except OSError as error:
        raise Stop(Status.UNREAD, f"{path}: {reason_of(error)}") from error
    return names


def read_kept(path: Path) -> Kept:
    """The folder as it is."""
    kept = Kept(path)
    names = numbers_of(path)
    if not names:
        raise Stop(
            Status.UNREAD, f"{path}: no step is kept there; begin with `keep {path} begin BOOK`"
        )
    for number, name in enumerate(names):
        if int(name) != number:
            raise Stop(Status.UNREAD, f"{path}: the step {number:04} is missing")
        kept = with_step(kept, path / name)
    return kept


def with_step(kept: Kept, folder: Path) -> Kept:
    """The folder with a step more, or with the steps that a correction makes anew."""
    event = read_event(folder)
    ids = folder / IDS
    more = replace(
        kept, count=kept.count + 1, ids=File(str(ids), read_file(ids)) if ids.exists() else kept.ids
    )
    if event.kind != CORRECT:
        step = read_step(folder, kept.count, event)
        return replace(
            more, steps=(*kept.steps, step), places=more.places | {step.number: len(kept.steps)}
        )
    steps = list(kept.steps)
    for name in numbers_of(folder / REPLAYED):
        if int(name) not in kept.places:
            raise Stop(Status.UNREAD, f"{folder / REPLAYED / name}: there is no such step")
        place = kept.places[int(name)]
        steps[place] = read_step(folder / REPLAYED / name, int(name), steps[place].event)
    return replace(more, steps=tuple(steps))


def read_event(folder: Path) -> Event:
    words = tuple(text_of(folder / EVENT).splitlines())
    if not words:
        raise Stop(Status.UNREAD, f"{folder / EVENT}: it has no words")
    text = TEXTS.get(words[0])
    return Event(
        words,
        File(str(folder / text), read_file(folder / text)) if text else None,
        File(str(folder / TABLE), read_file(folder / TABLE)) if TABLE in words[1:3] else None,
    )


def read_step(folder: Path, number: int, event: Event) -> Step:
    """A step in its own folder, or as a correction has it."""
    table = folder / TABLE
    return Step(
        number,
        event,
        File(str(table), read_file(table)) if table.exists() else None,
        tuple(text_of(folder / DUE).splitlines()),
        File(str(folder / BOOK), read_file(folder / BOOK)),
    )


def text_of(path: Path) -> str:
    try:
        return read_file(path).decode("utf-8")
    except UnicodeDecodeError as error:
        raise Stop(Status.UNREAD, f"{path}: it is not UTF-8") from error


def begin(path: Path, event: Event, book: Book, ids: bytes | None) -> None:
    """Makes the folder with its first step."""
    first = {EVENT: event_bytes(event), BOOK: book.file.data, DUE: b""}
    first |= {IDS: ids} if ids is not None else {}
    files.new_folder(path, {f"0000/{name}": data for name, data in first.items()})
