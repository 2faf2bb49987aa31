"""What each party gets month by month in an asset, from payments with dates.

LINES is a file of flow lines, as `flows` prints them of a portfolio with an origin. Prints a table:
the header `month,PARTY,..` with the parties of the asset in the order in which the lines first name
them, and a row for each month from the first to the last one with a payment. An amount is what the
party gets in the month less what it pays, exactly.

Ends with 0; 3 if LINES is not read; 4 if the output is not written whole; 7 if a line is no flow
line with a date, or no line pays the asset.
"""

from __future__ import annotations

import argparse
from collections.abc import Iterator
from decimal import Decimal
from pathlib import Path

from .. import decimals, lines, tables
from ..desk import Desk
from ..program import Status, Stop


def configure(parser: argparse.ArgumentParser) -> None:
    parser.add_argument("lines", metavar="LINES", type=Path, help="what `flows` printed")
    parser.add_argument("asset", metavar="ASSET", help="the asset whose payments are added up")


def run(arguments: argparse.Namespace, desk: Desk) -> int:
    payments = [it for it in lines.payments_in(arguments.lines) if it.asset == arguments.asset]
    if not payments:
        raise Stop(Status.ROW, f"{arguments.lines}: no line pays {arguments.asset}")
    # 0 with the decimals of the amount that has the most.
    nothing = decimals.total(it.amount * 0 for it in payments)
    got: dict[tuple[str, str], Decimal] = {}
    for payment in payments:
        for party, amount in (payment.payer, payment.amount.copy_negate()), (
            payment.receiver, payment.amount
        ):
            at = month_of(payment), party
            got[at] = decimals.added(got.get(at, nothing), amount)
    parties = dict.fromkeys(party for it in payments for party in (it.payer, it.receiver))
    months = [month_of(it) for it in payments]
    rows = [
        [month, *(decimals.text(got.get((month, party), nothing)) for party in parties)]
        for month in months_between(min(months), max(months))
    ]
    desk.write(*tables.lines_of([["month", *parties], *rows]))
    return Status.DONE


def month_of(payment: lines.Payment) -> str:
    return str(payment.day)[: len("2026-01")]


def months_between(first: str, last: str) -> Iterator[str]:
    year, month = map(int, first.split("-"))
    while f"{year:04}-{month:02}" <= last:
        yield f"{year:04}-{month:02}"
        year, month = (year, month + 1) if month < 12 else (year + 1, 1)
