"""A table of fixings with a row for each day, for rates that are quoted on business days alone.

Prints the header, and then the rows of TABLE, label by label in the order of their first rows, each
by day. A day between two rows of a label gets a row too, with the value of the last row before it.
With --to the last value of each label holds up to DAY as well, with that day. Days are all numbers
or all dates, and are printed as they are written.

Ends with 0; 3 if TABLE is not read; 4 if the output is not written whole; 7 if a record of TABLE is
not LABEL,DAY,VALUE, if its day is of another kind, or if a day of a label has two values.
"""

from __future__ import annotations

import argparse
from pathlib import Path

from .. import tables
from ..days import Day, day_of
from ..desk import Desk
from ..program import Status, Stop


def a_day(text: str) -> Day:
    if (day := day_of(text)) is None:
        raise argparse.ArgumentTypeError(
            f"{text} is neither a number of up to nine digits nor a date that exists"
        )
    return day


def configure(parser: argparse.ArgumentParser) -> None:
    parser.add_argument("table", metavar="TABLE", type=Path, help="a table of fixings")
    parser.add_argument("--to", metavar="DAY", type=a_day, help="the last day of each label")


def run(arguments: argparse.Namespace, desk: Desk) -> int:
    table, to = tables.rows_by_label(arguments.table), arguments.to
    if to and table.are_dates not in (None, to.is_date):
        raise Stop(Status.ROW, f"{arguments.table}: its days are of another kind than the last one")
    desk.write_each(table.filled_lines(to.number if to else None))
    return Status.DONE
