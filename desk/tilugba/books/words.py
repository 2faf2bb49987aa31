"""How a word of `book` is listed: what it does, what its help says, its arguments, and its run."""

from __future__ import annotations

import argparse
from collections.abc import Callable, Mapping
from typing import NamedTuple

from ..cli import add_program_options
from ..desk import Desk
from ..program import Status
from .book import File, file_of
from .changes import Changed


class Word(NamedTuple):
    """A word: what it does, what its help says below that, its arguments, its run."""

    summary: str
    says: str
    arguments: Callable[[argparse.ArgumentParser], None]
    run: Callable[[argparse.Namespace, Desk], int]


def add_words(parser: argparse.ArgumentParser, what: str, words: Mapping[str, Word]) -> None:
    """The words behind a command, each with a help of its own. The last one's run is `run_word`."""
    parsers = parser.add_subparsers(dest=what.lower(), metavar=what, required=True)
    for name, word in words.items():
        summary = f"{word.summary[0].upper()}{word.summary[1:]}."
        own = parsers.add_parser(
            name,
            help=word.summary,
            description=f"{summary}\n\n{word.says}" if word.says else summary,
            formatter_class=argparse.RawDescriptionHelpFormatter,
            allow_abbrev=False,
        )
        add_program_options(own, argparse.SUPPRESS)
        own.set_defaults(run_word=word.run)
        word.arguments(own)


def printed(desk: Desk, changed: Changed) -> int:
    desk.write(changed.text())
    return Status.DONE


def table_of(path: str | None) -> File | None:
    return file_of(path) if path else None


def book_argument(parser: argparse.ArgumentParser) -> None:
    parser.add_argument("book", metavar="BOOK", help="a portfolio")


def fix_argument(parser: argparse.ArgumentParser) -> None:
    parser.add_argument("fix", metavar="FIX", nargs="?", help="a table of fixings")
