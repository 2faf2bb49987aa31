"""The positions of many books, joined, from files as `positions` prints them.

A position of all books together is the sum of those of each. Prints a line DAY,PARTY,ASSET,AMOUNT
for each sum that is not 0, in the order of days, and then of assets and parties by their names.
Parties and assets of one name are one. Sums are exact.

Ends with 0; 1 if on some day in some asset the lines do not add up to 0, with such a day and asset;
3 if a file is not read; 4 if the output is not written whole; 7 if a line is no position, or if
days are numbers in one line and dates in another. Unless the status is 0 or 4, nothing is printed.
"""

from __future__ import annotations

import argparse
from decimal import Decimal
from pathlib import Path

from .. import decimals, lines
from ..days import Day
from ..desk import Desk
from ..program import Status, Stop


def configure(parser: argparse.ArgumentParser) -> None:
    parser.add_argument(
        "positions",
        metavar="POSITIONS",
        nargs="+",
        type=Path,
        help="what `positions` printed of a book",
    )


def run(arguments: argparse.Namespace, desk: Desk) -> int:
    sums = joined(arguments.positions)
    totals: dict[tuple[Day, str], Decimal] = {}
    for (day, asset, _), amount in sums.items():
        totals[day, asset] = decimals.added(totals.get((day, asset), Decimal(0)), amount)
    for day, asset in sorted(totals, key=lambda it: (it[0].number, it[1])):
        if total := totals[day, asset]:
            raise Stop(
                Status.REFUSED,
                f"on {day} the positions in {asset} add up to {decimals.text(total)}",
            )
    accounts = sorted((it for it in sums if sums[it]), key=lambda it: (it[0].number, *it[1:]))
    desk.write(
        *(
            f"{day},{party},{asset},{decimals.text(sums[day, asset, party])}\n"
            for day, asset, party in accounts
        )
    )
    return Status.DONE


def joined(paths: list[Path]) -> dict[tuple[Day, str, str], Decimal]:
    """The sum of each day, asset and party."""
    sums: dict[tuple[Day, str, str], Decimal] = {}
    first: tuple[Path, bool] | None = None
    for path in paths:
        for it in lines.positions_in(path):
            first = first or (path, it.day.is_date)
            if it.day.is_date != first[1]:
                kind = "dates" if it.day.is_date else "numbers"
                raise Stop(
                    Status.ROW, f"{path}: its days are {kind}, and those of {first[0]} are not"
                )
            account = it.day, it.asset, it.party
            sums[account] = decimals.added(sums.get(account, Decimal(0)), it.amount)
    return sums
