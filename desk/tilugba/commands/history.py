"""What the contracts of a book are worth, day by day.

For each day from FIRST to LAST the program values each contract of BOOK over those rows of FIX
that are not behind that day, as `value-by-day` does: each last rate holds up to --rates-to, or
up to LAST. CURVE has the factors of each day, or is a folder with a file `DAY.csv` for each.
Days are numbers, or dates if the book has an origin.

Prints a table with the header `day,contract,payer,receiver,asset,value`. It has a row for each
pair and asset of the contract's payments, also if the value is 0; the payer is the party that is
declared first. With --by pair the values of all contracts are added up, and the contract is `*`.
With --by party it is `day,party,asset,value`: what a party is to get, less what it is to pay.

Each contract is compiled once, and each call gets the rows that its contract can read. With
--keep FOLDER each answer is kept there. The same words go on where a run was stopped, and a
later run asks only what changed: another book, rate, factor or program. With --receipt FILE a
line of JSON is added to FILE: the words; name, size and SHA-256 of each file, of the program and
of the table; the time. `verify` compares them.

With --dask ADDRESS the calls go to the workers of a cluster, each of which has this package and the
same library or program. With --slurm FOLDER nothing is printed but what to do: the calls that are
not kept there yet are written as an array of tasks, which FOLDER/submit runs. Then the same words
with --keep FOLDER print the table. Wherever it is asked, the table has the same bytes.

Ends with 0; 3 if a file is not read; 4 if the output is not written whole; otherwise with the
status of the first call that gives no value, and then nothing is printed. A call that gets no
answer: 70, or 128 and the number of the signal that ended it.
"""

from __future__ import annotations

import argparse
from pathlib import Path

from ..asking.asks import path_of
from ..asking.options import Asking, add_options
from ..desk import Desk
from ..files import read_file
from ..histories import sums
from ..histories.asked import Days, coded
from ..histories.deals import Book, day_number, read_book
from ..histories.rates import Curves
from ..histories.valuing import OverRates
from ..program import Status, Stop
from ..receipts import Sum, add, of_desk
from ..tables import lines_of


def configure(parser: argparse.ArgumentParser) -> None:
    parser.add_argument("book", metavar="BOOK", type=Path, help="a portfolio")
    parser.add_argument("fix", metavar="FIX", type=Path, help="a table of fixings")
    parser.add_argument(
        "curve", metavar="CURVE", type=Path, help="a table of factors, or a folder of them"
    )
    parser.add_argument("first", metavar="FIRST", help="the first day of the values")
    parser.add_argument("last", metavar="LAST", help="the last day of the values")
    parser.add_argument(
        "--rates-to", metavar="DAY", help="the day up to which the last rates hold (LAST)"
    )
    parser.add_argument(
        "--by", choices=sums.LINES, default="contract", help="what has a row for itself (contract)"
    )
    parser.add_argument("--receipt", metavar="FILE", type=Path, help="add a receipt to this file")
    add_options(parser)


def run(arguments: argparse.Namespace, desk: Desk) -> int:
    asking = Asking.of(arguments, desk)
    data, table = read_file(arguments.book), read_file(arguments.fix)
    book = read_book(data, desk.engine)
    curves, days = Curves(arguments.curve, book.calendar), days_of(arguments, book)
    deals = coded(book, desk.engine, asking.jobs)
    over_rates = OverRates(book, deals, curves, days, desk.engine)
    over_rates.take_table(table)
    if asking.slurm:
        return asking.written(over_rates.asks())
    worth = over_rates.worth(asking.answers(over_rates.asks(), len(over_rates)))
    text = "".join(lines_of(sums.LINES[arguments.by](book, worth)))
    if arguments.receipt:
        read = [Sum.of(str(arguments.book), data), Sum.of(str(arguments.fix), table)]
        read += [Sum.of(str(path), curve) for path, curve in curves.read.items()]
        receipt = of_desk(
            words_of(arguments), read, Sum.of_file(path_of(desk.engine)), text.encode()
        )
        add(arguments.receipt, receipt)
    desk.write(text)
    return Status.DONE


def words_of(arguments: argparse.Namespace) -> list[str]:
    """The words that decide what is printed."""
    words = ["history", str(arguments.book), str(arguments.fix), str(arguments.curve)]
    words += [arguments.first, arguments.last, f"--by={arguments.by}"]
    return words + ([f"--rates-to={arguments.rates_to}"] if arguments.rates_to else [])


def days_of(arguments: argparse.Namespace, book: Book) -> Days:
    """The days of the words."""
    first, last = (day_number(book, word) for word in (arguments.first, arguments.last))
    rates_to = day_number(book, arguments.rates_to) if arguments.rates_to else last
    if first > last:
        raise Stop(Status.USAGE, f"{arguments.first} is behind {arguments.last}")
    return Days(first, last, rates_to)
