"""The words of `book` that keep a book in a folder, and say what a corrected table changes."""

from __future__ import annotations

import argparse
from collections.abc import Iterator
from contextlib import contextmanager
from pathlib import Path

from ..desk import Desk
from ..program import Status, Stop
from . import folder, ids, keeping, replaying
from .book import file_of, read_book
from .events import ADD, ADVANCE, AMEND, BEGIN, CORRECT, DROP, JOIN, NOVATE, PRUNE, Event, event
from .words import Word, add_words, book_argument, fix_argument, printed, table_of

SHOW = "show"


def folder_argument(parser: argparse.ArgumentParser) -> None:
    parser.add_argument("folder", metavar="FOLDER", type=Path, help="the folder of the book")


def new_argument(parser: argparse.ArgumentParser) -> None:
    said = "the corrected table of fixings, with all that was observed"
    parser.add_argument("new", metavar="NEW", help=said)


def since_arguments(parser: argparse.ArgumentParser) -> None:
    folder_argument(parser)
    new_argument(parser)


def run_since(arguments: argparse.Namespace, desk: Desk) -> int:
    kept = folder.read_kept(arguments.folder)
    found = replaying.corrected(desk.program, kept, file_of(arguments.new))
    desk.write(*(f"{line}\n" for line in found.lines.told(kept.book().calendar)))
    return Status.DONE


def keep_arguments(parser: argparse.ArgumentParser) -> None:
    folder_argument(parser)
    add_words(parser, "EVENT", EVENTS)


# ---- the events


def ids_argument(parser: argparse.ArgumentParser) -> None:
    said = "a table `name,id,..` of its contracts, which is kept beside the book"
    parser.add_argument("--ids", metavar="TABLE", help=said)


def begin_arguments(parser: argparse.ArgumentParser) -> None:
    book_argument(parser)
    ids_argument(parser)


def days_arguments(parser: argparse.ArgumentParser) -> None:
    parser.add_argument("fix", metavar="FIX", help="a table of fixings")
    parser.add_argument("--to", metavar="DAY", required=True, help="the day of the new book")


def novate_arguments(parser: argparse.ArgumentParser) -> None:
    days_arguments(parser)
    parser.add_argument("--contract", metavar="NAME", required=True, help="the contract")
    parser.add_argument("--old", metavar="P", required=True, help="the party that leaves it")
    parser.add_argument("--new", metavar="P", required=True, help="the party in its place")


def deal_arguments(parser: argparse.ArgumentParser) -> None:
    parser.add_argument("text", metavar="DEALS", help="a portfolio, with a start of its own")
    fix_argument(parser)
    ids_argument(parser)


def other_arguments(parser: argparse.ArgumentParser) -> None:
    parser.add_argument("text", metavar="B", help="another book, of the same origin and version")
    fix_argument(parser)
    ids_argument(parser)


def names_arguments(parser: argparse.ArgumentParser) -> None:
    parser.add_argument("names", metavar="NAME", nargs="+", help="a contract")


def no_arguments(parser: argparse.ArgumentParser) -> None:
    """The word stands alone."""


def event_of(arguments: argparse.Namespace) -> Event:
    """The event that the words say."""
    table = table_of(getattr(arguments, "fix", None))
    kind = arguments.event
    if kind in (ADVANCE, NOVATE):
        options = ("to", "contract", "old", "new") if kind == NOVATE else ("to",)
        words = (word for it in options for word in (f"--{it}", getattr(arguments, it)))
        return event(kind, *words, table=table)
    if kind == DROP:
        return event(kind, *arguments.names)
    return event(kind) if kind == PRUNE else event(kind, text=file_of(arguments.text), table=table)


def run_begin(arguments: argparse.Namespace, desk: Desk) -> int:
    book = read_book(arguments.book)
    table = ids.of_book(file_of(arguments.ids), book).data() if arguments.ids else None
    folder.begin(arguments.folder, event(BEGIN), book, table)
    return Status.DONE


@contextmanager
def telling_of(kept: folder.Kept) -> Iterator[None]:
    """Where the output of a step that is kept cannot be written, the fault says that it is kept."""
    try:
        yield
    except Stop as stop:
        if stop.status != Status.NOT_WRITTEN:
            raise
        step = kept.path / f"{kept.count:04}"
        raise Stop(stop.status, f"{stop.message}; the step is kept, as {step}") from stop


def run_event(arguments: argparse.Namespace, desk: Desk) -> int:
    kept = folder.read_kept(arguments.folder)
    table = table_of(getattr(arguments, "ids", None))
    changed = keeping.happened(desk.program, kept, event_of(arguments), table)
    with telling_of(kept):
        printed(desk, changed)
    if arguments.event == PRUNE:
        desk.tell(changed.gone)
    return Status.DONE


def run_correct(arguments: argparse.Namespace, desk: Desk) -> int:
    kept = folder.read_kept(arguments.folder)
    lines = keeping.correction(desk.program, kept, file_of(arguments.new))
    with telling_of(kept):
        desk.write(*(f"{line}\n" for line in lines.told(kept.book().calendar)))
    return Status.DONE


def run_show(arguments: argparse.Namespace, desk: Desk) -> int:
    desk.write(folder.read_kept(arguments.folder).last.book.data)
    return Status.DONE


EVENTS = {
    BEGIN: Word("make the folder, with the first book", "", begin_arguments, run_begin),
    ADVANCE: Word("move the book to a later day", "", days_arguments, run_event),
    NOVATE: Word("do the same, with another party in a contract", "", novate_arguments, run_event),
    ADD: Word("add deals", "", deal_arguments, run_event),
    AMEND: Word("put deals in the place of contracts", "", deal_arguments, run_event),
    DROP: Word("take contracts out", "", names_arguments, run_event),
    PRUNE: Word("take out contracts of which nothing is left", "", no_arguments, run_event),
    JOIN: Word("make one book of it and another one", "", other_arguments, run_event),
    CORRECT: Word("do anew what a corrected table changes", "", new_argument, run_correct),
    SHOW: Word("print the book of today; nothing is kept", "", no_arguments, run_show),
}
KEEPING = {
    "since": Word(
        "say what a corrected table changes in what was booked",
        """FOLDER is that of `keep`. The steps are done anew by the program, from the last book on
to which no table led that has a row which NEW does not have. Prints `gone,LINE` and `new,LINE`,
each on the line's own day, by day and then by name: what the ledger has to take back, and what it
lacks.
Nothing is kept; `keep FOLDER correct NEW` prints the same and keeps it. A step that does not apply
any more ends the command, with its number and its words.""",
        since_arguments,
        run_since,
    ),
    "keep": Word(
        "do a step and keep it in a folder",
        """Each step is done on the book of today in FOLDER, and becomes a folder of it:
FOLDER/0000, FOLDER/0001, .. with its words in `event`, its files, the new book, and what was due.
The new book is printed, with what was due as comments. `begin` prints nothing, and `correct` what
`since` prints. A step that changes nothing is not kept. FOLDER changes only at the end, all at
once.""",
        keep_arguments,
        run_event,
    ),
}
