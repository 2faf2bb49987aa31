"""Lays a text out in lines of at most 100 columns.

FILE is a portfolio, a code file or a schedule file. Tokens, comments and names stay as they are and
in their order; only blanks change, which is checked before anything is written. A comment or a
token that is longer keeps its line. Prints the text; with --in-place it takes the place of FILE. A
text with a fault is not touched: the fault is told as by `explain`, with status 6.
"""

from __future__ import annotations

import argparse
from pathlib import Path

from .. import files, formatting
from ..desk import Desk
from ..explanations import text_faults
from ..program import Status, Stop
from ..files import read_file
from ..texts.reading import Reading


def configure(parser: argparse.ArgumentParser) -> None:
    parser.add_argument("file", metavar="FILE", type=Path, help="the text")
    parser.add_argument("--in-place", action="store_true", help="put the text in the place of FILE")


def run(arguments: argparse.Namespace, desk: Desk) -> int:
    reading = Reading(read_file(arguments.file))
    if reading.fault:
        desk.tell(text_faults.note_of_fault(str(arguments.file), reading, reading.fault).told())
        return Status.TEXT
    try:
        laid = formatting.formatted(reading).encode()
    except formatting.Changed as changed:
        raise Stop(Status.DESK, str(changed)) from changed
    if not arguments.in_place:
        desk.write(laid)
    elif laid != reading.source.data:
        files.replace(arguments.file, laid)
    return Status.DONE
