"""A portfolio from the terms of trades, by the names of the ACTUS dictionary.

DECLS is a portfolio without contracts that has an origin, and is printed as it is. FILE has trades,
as a list in JSON or as CSV with a column for each term. Of the kinds PAM, LAM, ANN, SWPPV, CAPFL,
FXOUT and OPTNS each becomes a contract named by its contractID; CAPFL and OPTNS are taken in JSON.
The parties creatorID and counterpartyID, the currencies and the market objects are names that DECLS
declares.

Dates, business days and parts of a year are QuantLib's. Coupons are formulas that the program
computes and rounds once, by --mode. What this command cannot express is refused by its field, and
nothing is approximated. Payments before the start of DECLS are left out, which is told. With --rows
the table of payments is printed, which `rows` takes. With --roll payments are moved, whatever the
trades say.

Ends with 0; 1 if the program refuses a contract; 3 if a file is not read; 6 if DECLS is no
portfolio, or has contracts; 7 if a trade is not right, or is not expressed; 70 without QuantLib.
"""

from __future__ import annotations

import argparse

from .. import tables
from ..calendars import Mover, add_roll, calendar_of
from ..days import date_text
from ..desk import Desk
from ..program import Status, Stop
from ..quantlib import library
from ..rows.books import Told, accepted, book_of, declarations
from ..rows.payments import Payments
from ..terms.deals import Setting
from ..terms.kinds import kept_rows, payments_of, table_of
from ..terms.trades import read_trades
from ..texts.grammar import MODES


def configure(parser: argparse.ArgumentParser) -> None:
    parser.add_argument("decls", metavar="DECLS", help="a portfolio without contracts")
    parser.add_argument("file", metavar="FILE", help="trades, as JSON or CSV")
    parser.add_argument("--mode", choices=MODES, default=MODES[0], help="how coupons are rounded")
    parser.add_argument("--rows", action="store_true", help="print the table of payments")
    add_roll(parser)


def run(arguments: argparse.Namespace, desk: Desk) -> int:
    library()
    mover = Mover.of(arguments)
    try:
        reading = declarations(arguments.decls, desk)
    except Told as told:
        return told.status
    declared = reading.declared
    if declared.origin is None:
        raise Stop(Status.ROW, f"{arguments.decls}: it has no origin, and trades have dates")
    setting = Setting(declared, arguments.mode, calendar_of(arguments), desk.program)
    kept = [kept_rows(trade, setting, mover) for trade in read_trades(arguments.file)]
    payments = payments_of(kept, Payments(arguments.file, declared, mover))
    book = accepted(book_of(reading, payments), desk)
    first = date_text(declared.origin + declared.start) or ""
    desk.write(*(tables.lines_of(table_of(kept)) if arguments.rows else [book]))
    for it in kept:
        if it.before:
            desk.complain(it.told(first))
    return Status.DONE
