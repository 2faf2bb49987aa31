"""A portfolio from a table of payments: a contract of each name, as a balanced tree.

DECLS is a portfolio without contracts, which is printed as it is. TABLE has a header, and a row for
each payment:

  contract            the name of the contract, of which there may be many rows
  date                a date, or a number of days
  from, to, asset     who pays, who gets it, and what
  amount              how much; empty with a notional

and perhaps, behind them, these columns, by which a row is a coupon:

  label, fixing date  the rate that is observed, and on which day; without them `spread` is the rate
  notional            what the rate is of
  numerator, denominator, mode   the part of a year, and how the coupon is rounded
  spread, floor, cap  the rate is min(cap, max(floor, label)) + spread; each may be empty

A coupon is `div(mode, decimals of the asset, rate * notional * numerator, denominator)`: the
program computes it, and rounds it once. With --roll a payment on a closed day is moved; fixing
dates stay.

Ends with 0; 1 if the program refuses a contract; 3 if a file is not read; 6 if DECLS is no
portfolio, or has contracts; 7 if a record of TABLE is not right, as one with a date before the
start. The record and the field are told.
"""

from __future__ import annotations

import argparse

from ..calendars import Mover, add_roll
from ..desk import Desk
from ..program import Status
from ..rows.books import Told, accepted, book_of, declarations
from ..rows.payments import read_payments


def configure(parser: argparse.ArgumentParser) -> None:
    parser.add_argument("decls", metavar="DECLS", help="a portfolio without contracts")
    parser.add_argument("table", metavar="TABLE", help="a table of payments")
    add_roll(parser)


def run(arguments: argparse.Namespace, desk: Desk) -> int:
    mover = Mover.of(arguments)
    try:
        reading = declarations(arguments.decls, desk)
    except Told as told:
        return told.status
    payments = read_payments(arguments.table, reading.declared, mover)
    desk.write(accepted(book_of(reading, payments), desk))
    return Status.DONE
