"""Lines of payments, each with the ids of its contract.

LINES is what `flows` or `settle` printed, or what `book since` and `book diff` printed of flow
lines. TABLE has a record `name,id,..` for each contract, with further columns as one likes. Prints
each line with the columns behind the name, in their order; fields are quoted where they have
commas. Amounts stay as they are.

A contract without a row ends the command with 10, with the number of the line, and nothing is
printed; with --all its columns are empty, and so are those of `*`, the name of netted lines. Ends
with 0; 3 if a file is not read; 4 if the output is not written whole; 7 if a line is no flow line,
or a record of TABLE is bad.
"""

from __future__ import annotations

import argparse
import re
from collections.abc import Iterator

from ..books import ids
from ..books.book import file_of
from ..books.ids import Ids
from ..desk import Desk
from ..lines import PAYMENT, text_of
from ..program import Status, Stop
from ..tables import quoted

# A line of a difference has a word before it.
LINE = re.compile(rf"(gone,|new,)?({PAYMENT.pattern})")


def configure(parser: argparse.ArgumentParser) -> None:
    parser.add_argument("lines", metavar="LINES", help="flow lines, or lines of a difference")
    parser.add_argument("table", metavar="TABLE", help="a table of ids")
    parser.add_argument(
        "--all", action="store_true", help="print lines without a row too, with empty fields"
    )


def run(arguments: argparse.Namespace, desk: Desk) -> int:
    table = ids.read(file_of(arguments.table))
    found = list(lines_of(arguments.lines, table, arguments.table, arguments.all))
    desk.write(*(f"{line}\n" for line in found))
    return Status.DONE


def lines_of(path: str, table: Ids, name_of_table: str, is_lenient: bool) -> Iterator[str]:
    """The lines with the columns of their contracts."""
    for number, line in enumerate(text_of(path).splitlines(), 1):
        told = LINE.fullmatch(line)
        if told is None:
            raise Stop(Status.ROW, f"{path}: line {number} is no flow line")
        name = told[2].partition(",")[0]
        if name not in table.rows and not is_lenient:
            raise Stop(
                Status.UNKNOWN,
                f"{path}: line {number} is of {name}, which has no row in {name_of_table}",
            )
        yield ",".join([line, *map(quoted, table.of(name, table.columns))])
