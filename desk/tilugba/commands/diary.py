"""What contracts read and paid, day by day, and what was left of them.

Each contract of BOOK, or the one of --contract, is advanced from day to day over the rows of FIX
that were known by then, up to before the day of --to. Prints a line for each fact, by day and then
by contract:

  DAY NAME is TEXT                  what is left of it on that day, in canonical text
  DAY NAME reads LABEL VALUE        a row without which the day would be another (`of DAY`: an
  earlier row)
  DAY NAME pays FROM TO ASSET AMOUNT

A day on which a contract read and paid nothing, so that only time went by, is left out; --all has
these days too. What was read is asked of the program: it gets the table without that row.

Ends with 0; 3 if a file is not read; 4 if the output is not written whole; 10 if there is no
such contract; 11 if DAY is out of range; otherwise with the status of the first run that ends
with a fault, of which the day and the contract are told. Then nothing is printed.
"""

from __future__ import annotations

import argparse
from concurrent.futures import ThreadPoolExecutor
from pathlib import Path

from ..asking.options import processors
from ..counts import jobs
from ..desk import Desk
from ..diaries import Living, lines_of
from ..files import read_file
from ..histories.deals import Book, Deal, day_number, read_book, refuse_new_day, refuse_rows
from ..program import Status, Stop
from ..shocks.shocked import rows_of


def configure(parser: argparse.ArgumentParser) -> None:
    parser.add_argument("book", metavar="BOOK", type=Path, help="a portfolio")
    parser.add_argument("fix", metavar="FIX", type=Path, help="a table of fixings")
    parser.add_argument("--to", metavar="DAY", required=True, help="the day before which it ends")
    parser.add_argument("--contract", metavar="NAME", help="one contract of the book")
    parser.add_argument("--all", action="store_true", help="have each day")
    parser.add_argument("--jobs", metavar="N", type=jobs, help="so many contracts at once")


def run(arguments: argparse.Namespace, desk: Desk) -> int:
    book = read_book(read_file(arguments.book), desk.engine)
    data = read_file(arguments.fix)
    refuse_rows(book, data, desk.engine)
    living = Living(book, rows_of(book, data), desk.engine)
    to, deals = day_number(book, arguments.to), deals_of(book, arguments.contract)
    if to < book.start:
        raise Stop(
            Status.DAY,
            f"{arguments.to} is before the book's start, {book.calendar.text(book.start)}",
        )
    refuse_new_day(book, to, desk.engine)
    with ThreadPoolExecutor(arguments.jobs or processors()) as pool:
        diaries = list(pool.map(lambda deal: living.diary(deal, to), deals))
    told = lines_of(diaries, book.calendar, book.start, arguments.all)
    desk.write(*(f"{line}\n" for line in told))
    return Status.DONE


def deals_of(book: Book, name: str | None) -> list[Deal]:
    """The contract of a name, or all."""
    found = [it for it in book.deals if name in (None, it.name)]
    if name is not None and not found:
        known = ", ".join(it.name for it in book.deals)
        raise Stop(Status.UNKNOWN, f"there is no contract {name}; contracts: {known}")
    return found
