"""A set of scenarios out of a table of fixings: rates moved by steps, or as they once moved.

In OUT, a new file, the rows of FIX before the day of --from hold in each scenario, and so do those
of labels that no scenario moves. From that day on each scenario has the rows of the other labels,
moved or as they are. FIX is a table for the whole time, as `fill-days --to` makes it.

With --label EURUSD --by=-5%,-1%,1%,5% there is a scenario for each step, EURUSD_down_5 and so
on. Without the % a step is added: --by=-0.0025,0.0025 makes EURUSD_minus_0_0025 and
EURUSD_plus_0_0025. Several labels are moved one at a time, by the steps of the only --by or each
by its own. With --parallel all are moved at once: all_down_5, or all_1, .. if their steps
differ.

With --replay HISTORY --last N all labels are moved as they were in the last N changes of a table,
from each day on which all have a value to the next: on_2026_01_05, .. A change is a factor, and
with --points it is added. Without --label these are the labels that HISTORY, FIX and BOOK share.

--base adds the scenario base, in which nothing is moved. Values are rounded once by --mode to the
decimals of their label. One outside the label's bounds is refused, with its scenario.

Prints how many scenarios and rows OUT has. Ends with 0; with the status of the program if it
refuses BOOK or FIX; 2 if the words or the names of scenarios do not do; 3 if a file is not read;
4 if OUT is there or is not written; 7 if a value is refused, or a row is missing; 10 if a label
is not declared. Unless the status is 0, OUT is not written.
"""

from __future__ import annotations

import argparse
from collections.abc import Iterator
from pathlib import Path

from .. import tables
from ..counts import count_up_to
from ..desk import Desk
from ..explanations.notes import counted
from ..files import create, read_file
from ..histories.deals import Book, day_number, read_book, refuse_rows
from ..program import Status, Stop
from ..shocks.moves import Scenario, all_at_once, one_by_one, replayed
from ..shocks.shocked import Row, Shocked, checked, label_of, rows_of
from ..shocks.steps import Step, steps_of
from ..texts.grammar import MODES

MOST_CHANGES = 99_999


def configure(parser: argparse.ArgumentParser) -> None:
    parser.add_argument("book", metavar="BOOK", type=Path, help="a portfolio")
    parser.add_argument("fix", metavar="FIX", type=Path, help="a table of fixings")
    parser.add_argument(
        "--from", dest="first", metavar="DAY", required=True, help="the first day that is moved"
    )
    parser.add_argument("--mode", required=True, choices=MODES, help="how values are rounded")
    parser.add_argument(
        "--to", dest="out", metavar="OUT", type=Path, required=True, help="the new file"
    )
    parser.add_argument("--label", action="append", metavar="LABEL", help="a label that is moved")
    parser.add_argument("--by", action="append", metavar="STEP,..", type=steps_of, help="the steps")
    parser.add_argument("--parallel", action="store_true", help="move all labels at once")
    parser.add_argument("--replay", metavar="HISTORY", type=Path, help="move them as in this table")
    parser.add_argument(
        "--last",
        metavar="N",
        type=count_up_to(MOST_CHANGES),
        help="how many changes of HISTORY there are",
    )
    parser.add_argument("--points", action="store_true", help="add the changes of HISTORY")
    parser.add_argument("--base", action="store_true", help="have a scenario that moves nothing")


def run(arguments: argparse.Namespace, desk: Desk) -> int:
    refuse_words(arguments)
    book = read_book(read_file(arguments.book), desk.engine)
    data = read_file(arguments.fix)
    refuse_rows(book, data, desk.engine)
    rows = rows_of(book, data)
    for label in arguments.label or []:
        label_of(book, label)
    scenarios = checked(scenarios_of(arguments, book, rows), arguments.base)
    shocked = Shocked(book, rows, day_number(book, arguments.first), arguments.mode)
    lines = list(tables.lines_of(shocked.lines(scenarios)))
    create(arguments.out, "".join(lines).encode())
    counts = counted(len(scenarios), "scenario"), counted(len(lines) - 1, "row")
    desk.write(f"{', '.join(counts)}\n")
    return Status.DONE


def refuse_words(arguments: argparse.Namespace) -> None:
    """Ends the command if its words do not go together."""
    labels, steps = arguments.label or [], arguments.by or []
    why = None
    if arguments.replay:
        if not arguments.last:
            why = "--replay takes --last N"
        elif steps or arguments.parallel:
            why = "--replay takes no --by and no --parallel"
    elif arguments.last or arguments.points:
        why = "--last and --points go with --replay"
    elif not labels or not steps:
        why = "it takes --label and --by, or --replay"
    elif len(steps) not in (1, len(labels)):
        why = f"there are {len(labels)} labels, and {len(steps)} times --by"
    if len(set(labels)) < len(labels):
        why = "a label is named twice"
    if why:
        raise Stop(Status.USAGE, why)


def scenarios_of(arguments: argparse.Namespace, book: Book, rows: list[Row]) -> Iterator[Scenario]:
    """The scenarios of the words."""
    if arguments.replay:
        history = tables.rows_by_label(arguments.replay)
        here = {row.label for row in rows}
        shared = [it for it in book.labels.numbers() if it in history.values and it in here]
        labels = arguments.label or shared
        if not labels:
            raise Stop(
                Status.ROW, f"{arguments.replay}: it shares no label with the book and the table"
            )
        return replayed(labels, history, arguments.last, arguments.points, str(arguments.replay))
    labels: list[str] = arguments.label
    steps: list[list[Step]] = arguments.by * len(labels) if len(arguments.by) == 1 else arguments.by
    return (all_at_once if arguments.parallel else one_by_one)(labels, steps)
