"""The records of a table that a book can read, so that one table serves many books.

BOOK is a portfolio or a code file. Prints the header of TABLE, and those records whose label BOOK
declares as num or flag, in their order and byte for byte. Records, fields and quotes are those of
docs/FORMATS.md. TABLE may be of any length.

Ends with 0; 3 if a file is not read; 4 if the output is not written whole; 6 if BOOK is neither a
portfolio nor a code file; 7 if a record of TABLE does not have three fields, or the first one is
not the header. Unless the status is 0 or 4, nothing is printed.
"""

from __future__ import annotations

import argparse
from collections.abc import Iterator
from pathlib import Path

from .. import tables
from ..desk import Desk
from ..program import Status, Stop
from ..texts import tokens
from ..texts.tokens import Source

BEGINNINGS = (["portfolio", "1", ";"], ["portfolio", "2", ";"], ["payoff", "1", ";"])


def configure(parser: argparse.ArgumentParser) -> None:
    parser.add_argument("book", metavar="BOOK", type=Path, help="a portfolio or a code file")
    parser.add_argument(
        "table", metavar="TABLE", type=Path, help="a table of fixings, of this book and of others"
    )


def run(arguments: argparse.Namespace, desk: Desk) -> int:
    labels = labels_of(arguments.book)
    mark, header, records = tables.read_whole(arguments.table, tables.FIXINGS)
    desk.write(mark, header.data, *(it.data for it in records if it.fields[0] in labels))
    return Status.DONE


def labels_of(path: Path) -> set[bytes]:
    """The labels that a book declares: `num` and `flag` are reserved words, so each has the name of
    one behind it.
    """
    found = list(before_contracts(path))
    if found[:3] not in BEGINNINGS:
        raise Stop(Status.TEXT, f"{path} is neither a portfolio nor a code file")
    return {name.encode() for word, name in zip(found, found[1:]) if word in ("num", "flag")}


def before_contracts(path: Path) -> Iterator[str]:
    """The tokens of a text before its contracts or its code."""
    source = Source(tables.read_file(path))
    for token in tokens.tokens(source.text):
        if token.text in ("contract", "code"):
            return
        if token.kind == tokens.STRAY:
            line, column = source.place(token.at)
            raise Stop(Status.TEXT, f"{path}: no token begins on line {line} at column {column}")
        yield token.text
