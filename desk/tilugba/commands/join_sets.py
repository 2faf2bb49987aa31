"""What `scenarios` prints of a whole set, from what it printed of its parts.

Each PART is the output of a run of `scenarios` with status 0, on one part of the set (see
`split-set`), in their order. All runs had the same words but for the set. The sum is the sum of the
parts' sums, the mean is rounded once by MODE, and of the least and the greatest the first of the
parts counts. Numbers are added exactly, and the lines of the scenarios are handed on byte for byte.

Ends with 0; 3 if a PART is not read; 4 if the output is not written whole; 7 if a PART is no such
output, or two have a scenario of one name, or their numbers have different decimals. Unless the
status is 0 or 4, nothing is printed.
"""

from __future__ import annotations

import argparse
from pathlib import Path

from .. import decimals, lines
from ..desk import Desk
from ..lines import Values
from ..program import Status, Stop
from ..texts.grammar import MODES


def configure(parser: argparse.ArgumentParser) -> None:
    parser.add_argument(
        "mode", metavar="MODE", choices=MODES, help=f"how the mean is rounded: {', '.join(MODES)}"
    )
    parser.add_argument(
        "parts", metavar="PART", nargs="+", type=Path, help="what `scenarios` printed of a part"
    )


def run(arguments: argparse.Namespace, desk: Desk) -> int:
    parts = fitting(arguments.parts)
    total = decimals.total(it.total for it in parts)
    mean = decimals.mean(total, sum(len(it.each) for it in parts), arguments.mode)
    # `min` and `max` keep the first of several.
    least = min((it.least for it in parts), key=lambda it: it.value)
    greatest = max((it.greatest for it in parts), key=lambda it: it.value)
    desk.write(
        *(it.text for it in parts),
        f"total,{decimals.text(total)}\nmean,{decimals.text(mean)}\n",
        f"least,{least.name},{decimals.text(least.value)}\n",
        f"greatest,{greatest.name},{decimals.text(greatest.value)}\n",
    )
    return Status.DONE


def fitting(paths: list[Path]) -> list[Values]:
    """The parts, which have each scenario once, and numbers of as many decimals."""
    parts, names, places = [lines.values_in(path) for path in paths], set[str](), set[int]()
    for path, part in zip(paths, parts):
        places |= {decimals.decimals_of(it) for it in part.numbers()}
        if len(places) > 1:
            raise Stop(Status.ROW, f"{path}: it has other decimals than the parts before it")
        for it in part.each:
            if it.name in names:
                raise Stop(
                    Status.ROW, f"{path}: the scenario {it.name} is in two parts, or twice in one"
                )
            names.add(it.name)
    return parts
