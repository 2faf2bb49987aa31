"""What code is worth day by day, if the rates stay as they were last seen.

For each day from FIRST to LAST the program values the code over those rows of FIX that are not
behind that day. Up to --rates-to, or up to LAST, each label has its last value on the days without
a row, so what is not yet known is assumed to stay as it is. Factors are those of CURVE on each day.
Days are all numbers or all dates. Prints a table: the header `day,value`, and a row for each day.

Ends with 0; 3 if a file is not read; 4 if the output is not written whole; 7 if a record of FIX is
not LABEL,DAY,VALUE, or its day is of another kind; 70 if the program does not start; and with the
status of the first run that gives no value. Then nothing is printed.
"""

from __future__ import annotations

import argparse

from .. import tables
from ..days import Day, day_of
from ..desk import Desk
from ..program import Fault, Status, Stop
from ..valuing import Question, add_question


def configure(parser: argparse.ArgumentParser) -> None:
    parser.add_argument("code", metavar="CODE", help="a code file")
    parser.add_argument("fix", metavar="FIX", help="a table of fixings")
    parser.add_argument("curve", metavar="CURVE", help="a table of factors")
    parser.add_argument("first", metavar="FIRST", help="the first day of the values")
    parser.add_argument("last", metavar="LAST", help="the last day of the values")
    parser.add_argument(
        "--rates-to", metavar="DAY", help="the day up to which the last rates hold (LAST)"
    )
    add_question(parser)


def run(arguments: argparse.Namespace, desk: Desk) -> int:
    first, last, rates_to = map(
        day_of, (arguments.first, arguments.last, arguments.rates_to or arguments.last)
    )
    if (
        first is None
        or last is None
        or rates_to is None
        or len({first.is_date, last.is_date, rates_to.is_date}) > 1
    ):
        raise Stop(
            Status.USAGE, "FIRST, LAST and the day of --rates-to are all numbers or all dates"
        )
    if first.number > last.number:
        raise Stop(Status.USAGE, f"{arguments.first} is behind {arguments.last}")
    table = tables.rows_by_label(arguments.fix)
    if table.are_dates not in (None, first.is_date):
        raise Stop(Status.ROW, f"{arguments.fix}: its days are of another kind than the first one")
    # Read once, so that each may be a pipe.
    code, curve = tables.read_file(arguments.code), tables.read_file(arguments.curve)
    question = Question.of(arguments)
    rows = [["day", "value"]]
    for number in range(first.number, last.number + 1):
        day = str(Day(number, first.is_date))
        known = "".join(table.until(number).filled_lines(rates_to.number)).encode()
        try:
            rows.append([day, question.value(desk.program, code, known, curve, day)])
        except Fault as fault:
            raise Stop(
                fault.status, f"day {day}: status {fault.status}, {fault.message}"
            ) from fault
    desk.write(*tables.lines_of(rows))
    return Status.DONE
