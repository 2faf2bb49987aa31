"""Warns of what is right and probably not meant in a book.

Warnings are lines FILE:LINE:COLUMN: KIND: .., by the book and by the table FIX of fixings, if it is
named:

  weekend, holiday  a payment, or an observation of one day, on a weekend or a day of --holidays
  itself            a party that pays itself
  unused            a declared or bound name that nothing uses
  zero, nothing     a contract that is `zero`, or of which `check` says that its total is 0
  bounds            bounds that are a hundred times what the table has
  unread            a label of the table that no contract reads
  day               a day of the table far from what contracts read, as a serial number of a date is

Ends with 0 if there is no warning, and else with 1. A fault of the book or of the table is told as
by `explain`, with its status.
"""

from __future__ import annotations

import argparse

from .. import linting
from ..command_line import FIX
from ..days import read_holidays
from ..desk import Desk
from ..explanations.explaining import tell_fault
from ..explanations.rows import Table
from ..program import Status
from ..files import read_file
from ..texts.grammar import PORTFOLIO
from ..texts.reading import Reading

# The warnings are told of a table that the program takes; a missing fixing is no fault here.
FINE = (Status.DONE, Status.REFUSED, Status.MISSING)


def configure(parser: argparse.ArgumentParser) -> None:
    parser.add_argument("book", metavar="BOOK", help="a portfolio")
    parser.add_argument("fix", metavar="FIX", nargs="?", help="a table of fixings")
    parser.add_argument(
        "--holidays",
        metavar="FILE",
        help="dates on which nobody pays, one a line; the rest of a line is left aside",
    )


def run(arguments: argparse.Namespace, desk: Desk) -> int:
    holidays = read_holidays(arguments.holidays) if arguments.holidays else frozenset()
    book_data = read_file(arguments.book)
    checked = desk.program.run("check", book_data)
    if checked.status not in FINE:
        return tell_fault(desk, ["check", arguments.book], checked, {arguments.book: book_data})
    book = linting.Book(Reading(book_data, PORTFOLIO), holidays)
    lines = [
        (it.place, it.told(arguments.book)) for it in linting.warnings_of(book, checked.verdicts())
    ]
    below: list[str] = []
    if arguments.fix:
        data = read_file(arguments.fix)
        words = ["flows", arguments.book, arguments.fix]
        answer = desk.program.run("flows", book_data, data)
        if answer.status not in FINE:
            return tell_fault(desk, words, answer, {arguments.book: book_data, arguments.fix: data})
        table = Table(arguments.fix, FIX, arguments.book, data, book.reading.declared)
        if answer.status != Status.REFUSED:
            lines += [
                (it.place, it.told(arguments.book)) for it in linting.wide_bounds(book, table)
            ]
            below = [it.told(arguments.fix) for it in linting.table_warnings(book, table)]
    told = [line for _, line in sorted(lines)] + below
    desk.write("".join(f"{line}\n" for line in told))
    return 1 if told else 0
