"""A book as one page of HTML: payments, what is missing, contracts, values, a receipt.

The page has what was due and what is due by month and party, with pictures; the fixings for which
contracts wait; with a CURVE the values on the day of the report and the exposure to each party, if
each rate stays as it was last seen; each contract with its verdict and what is left of it; and a
receipt. A contract that is refused, or waits for a fixing, is told of in its place.

The day of the report is --at, or the last day that FIX has a row for. The page is one file without
a script, which asks no other host for anything, and it can be printed.

Ends with 0; 3 if a file is not read; 4 if the output is not written whole; 6 if BOOK does not
parse; 7 if a row of FIX or of CURVE is refused. Unless the status is 0 or 4, nothing is printed.
"""

from __future__ import annotations

import argparse
from collections.abc import Sequence
from pathlib import Path

from ..asking.asks import path_of
from ..asking.options import processors
from ..counts import jobs
from ..desk import Desk
from ..files import read_file
from ..histories.asked import Coded, Days
from ..histories.deals import Book, compiled, day_number, read_judged, refuse_rows
from ..histories.rates import Curves
from ..histories.valuing import OverRates, Worth
from ..program import Status, Stop
from ..receipts import Receipt, Sum, of_desk
from ..reports.facts import Asking, Facts, all_facts
from ..reports.page import page
from ..reports.sections import Told
from ..shocks.shocked import rows_of


def configure(parser: argparse.ArgumentParser) -> None:
    parser.add_argument("book", metavar="BOOK", type=Path, help="a portfolio")
    parser.add_argument("fix", metavar="FIX", type=Path, help="a table of fixings")
    parser.add_argument("curve", metavar="CURVE", type=Path, nargs="?", help="a table of factors")
    parser.add_argument("--at", metavar="DAY", help="the day of the report")
    parser.add_argument("--title", help="what stands above the page (the name of BOOK)")
    parser.add_argument("--jobs", metavar="N", type=jobs, help="so many contracts at once")


def run(arguments: argparse.Namespace, desk: Desk) -> int:
    data, table = read_file(arguments.book), read_file(arguments.fix)
    book, verdicts = read_judged(data, desk.engine)
    refuse_rows(book, table, desk.engine)
    rows = rows_of(book, table)
    at = (
        day_number(book, arguments.at)
        if arguments.at
        else max([book.start, *(it.day for it in rows)])
    )
    if at < book.start:
        raise Stop(
            Status.DAY,
            f"{arguments.at} is before the book's start, {book.calendar.text(book.start)}",
        )
    facts = all_facts(Asking(book, rows, at, desk.engine), verdicts, arguments.jobs or processors())
    worth, missing, curves = values_of(arguments, book, facts, table, at, desk)
    receipt = receipt_of(
        arguments, {arguments.book: data, arguments.fix: table, **curves}, desk, at, book
    )
    title = arguments.title or arguments.book.name
    told = Told(title, book, at, facts, worth, missing, arguments.curve is not None, receipt)
    desk.write(page(told))
    return Status.DONE


def values_of(
    arguments: argparse.Namespace,
    book: Book,
    facts: Sequence[Facts],
    table: bytes,
    at: int,
    desk: Desk,
) -> tuple[list[Worth], list[tuple[str, str]], dict[Path, bytes]]:
    """The values of the day, the contracts that have none and why, and the curve that was read."""
    if arguments.curve is None:
        return [], [], {}
    curves = Curves(arguments.curve, book.calendar)
    accepted = [Coded(it.deal, compiled(it.deal, desk.engine)) for it in facts if it.is_accepted]
    reads = [last for it in accepted for days in it.deal.reads.values() for _, last in days]
    over = OverRates(book, accepted, curves, Days(at, at, max([at, *reads])), desk.engine)
    over.take_table(table)
    worth: list[Worth] = []
    missing = {it.deal.name: "it is refused" for it in facts if not it.is_accepted}
    for place, ask in zip(over.places(), over.asks()):
        try:
            worth.append(over.worth_at(place, ask.answer(desk.engine)))
        except Stop as stop:
            missing.setdefault(place.it.deal.name, stop.message.partition(": ")[2])
    return worth, list(missing.items()), curves.read


def receipt_of(
    arguments: argparse.Namespace, files: dict[Path, bytes], desk: Desk, at: int, book: Book
) -> Receipt:
    """What the page is made of. Of itself it has no sum."""
    words = ["report", *map(str, files), f"--at={book.calendar.text(at)}"]
    read = [Sum.of(str(path), data) for path, data in files.items()]
    return of_desk(words, read, Sum.of_file(path_of(desk.engine)), None)
