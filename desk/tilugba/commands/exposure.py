"""What would be lost if a party failed, day by day: of a history, or over a set of scenarios.

  exposure HISTORY                                         what `history` printed, by contract or
  pair
  exposure BOOK SCEN CURVE FIRST LAST --mean MODE          the lines of `scenarios` by contract
  and day

Exposure to a party is the part above 0 of what it is to pay, at these values: that of all others
together, or of --of PARTY alone. The contracts of a pair are netted; with --gross each counts for
itself. Assets stay apart.

Of a history it prints a table with the header `day,party,asset,exposure`. Of a set the header is
`day,party,asset,expected,greatest,scenario`: the mean over the scenarios, rounded once by --mean,
the greatest, and the first scenario that has it. Behind the days are rows with the day `*`: the
greatest of all days in each column. A value in a scenario is that of its one course of the rates,
and an expected exposure counts each scenario alike.

With --picture FILE, a new SVG, the table is drawn, an asset below the other. --jobs, --keep,
--dask and --slurm are those of `history`.

Ends with 0; 3 if a file is not read; 4 if the output or the picture is not written; 7 if HISTORY
is no history, or is by pair and --gross is named; 10 if no party is called as --of says; over a
set otherwise with the status of the first call that gives no values. Then nothing is printed.
"""

from __future__ import annotations

import argparse
from pathlib import Path

from ..asking.options import Asking, add_options
from ..desk import Desk
from ..exposures.held import History, read_history
from ..exposures.positive import Exposing
from ..exposures.sets import OverSet
from ..files import create, read_file
from ..histories.asked import Days, coded
from ..histories.deals import Book, day_number, read_book
from ..histories.rates import Curves
from ..pictures.lines import picture_of_exposure
from ..program import Status, Stop
from ..tables import lines_of
from ..texts.grammar import MODES


def configure(parser: argparse.ArgumentParser) -> None:
    parser.usage = (
        "tilugba-desk exposure [OPTION..] HISTORY\n"
        "       tilugba-desk exposure [OPTION..] BOOK SCEN CURVE FIRST LAST --mean MODE"
    )
    parser.add_argument(
        "words", nargs="+", metavar="HISTORY", help="a history, or a book and a set"
    )
    parser.add_argument("--mean", metavar="MODE", choices=MODES, help="how the mean is rounded")
    parser.add_argument("--of", metavar="PARTY", help="whose loss is counted")
    parser.add_argument("--gross", action="store_true", help="net no contracts")
    parser.add_argument("--picture", metavar="FILE", type=Path, help="draw it into a new SVG")
    add_options(parser)


def run(arguments: argparse.Namespace, desk: Desk) -> int:
    exposing = exposing_of(arguments, desk)
    if exposing is None:
        return Status.DONE
    if arguments.of is not None and arguments.of not in exposing.history.parties:
        known = ", ".join(exposing.history.parties)
        raise Stop(Status.UNKNOWN, f"there is no party {arguments.of}; parties: {known}")
    rows = list(exposing.rows())
    if arguments.picture:
        create(arguments.picture, picture_of_exposure(rows, arguments.of).encode())
    desk.write(*lines_of(rows))
    return Status.DONE


def exposing_of(arguments: argparse.Namespace, desk: Desk) -> Exposing | None:
    """What is to be shown, of a history or of a set; nothing if it is only to be written for
    Slurm.
    """
    words: list[str] = arguments.words
    if len(words) == 1 and not arguments.mean:
        history = read_history(Path(words[0]))
        if arguments.gross and not history.is_by_contract:
            raise Stop(Status.ROW, f"{words[0]}: it is by pair, and --gross needs each contract")
        return Exposing(history, arguments.of, arguments.gross)
    if len(words) == 5 and arguments.mean:
        found = over_set(arguments, words, desk)
        of_what = arguments.of, arguments.gross
        return found and Exposing(found[0], *of_what, found[1], arguments.mean)
    raise Stop(Status.USAGE, "it takes HISTORY, or BOOK SCEN CURVE FIRST LAST and --mean MODE")


def over_set(
    arguments: argparse.Namespace, words: list[str], desk: Desk
) -> tuple[History, list[str]] | None:
    """The values of a book over a set, and the names of its scenarios; nothing if Slurm has
    them.
    """
    asking = Asking.of(arguments, desk)
    data, table = read_file(words[0]), read_file(words[1])
    book = read_book(data, desk.engine)
    curves, days = Curves(Path(words[2]), book.calendar), days_of(words, book)
    deals = coded(book, desk.engine, asking.jobs)
    over = OverSet(book, deals, curves, days, desk.engine, arguments.mean)
    over.take_table(table)
    if not deals:
        raise Stop(Status.ROW, f"{words[0]}: it has no contract")
    if asking.slurm:
        asking.written(over.asks())
        return None
    history = over.history(asking.answers(over.asks(), len(over)))
    return history, over.scenarios.names


def days_of(words: list[str], book: Book) -> Days:
    first, last = (day_number(book, word) for word in words[3:])
    if first > last:
        raise Stop(Status.USAGE, f"{words[3]} is behind {words[4]}")
    return Days(first, last, last)
