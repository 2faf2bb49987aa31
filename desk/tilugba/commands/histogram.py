"""How many scenarios have a value of which size.

LINES is what `scenarios` prints. Values are counted in steps of WIDTH, a whole number: the step of
a value begins at the greatest multiple of WIDTH that is not above it. Prints a table for `draw`:
the header `value,scenarios`, and a row for each step from the least to the greatest value, with its
beginning and its count.

Ends with 0; 3 if LINES is not read; 4 if the output is not written whole; 7 if LINES is not what
`scenarios` prints, or there are more than 1,000 steps.
"""

from __future__ import annotations

import argparse
import re
from collections import Counter
from decimal import ROUND_FLOOR, Decimal
from pathlib import Path

from .. import lines
from ..desk import Desk
from ..program import Status, Stop

MOST_STEPS = 1000


def a_width(text: str) -> int:
    if not re.fullmatch("[1-9][0-9]{0,29}", text):
        raise argparse.ArgumentTypeError(f"{text} is not a whole number above 0 of up to 30 digits")
    return int(text)


def configure(parser: argparse.ArgumentParser) -> None:
    parser.add_argument("lines", metavar="LINES", type=Path, help="what `scenarios` printed")
    parser.add_argument("width", metavar="WIDTH", type=a_width, help="how wide a step is")


def run(arguments: argparse.Namespace, desk: Desk) -> int:
    width: int = arguments.width
    counts = Counter(step_of(it.value, width) for it in lines.values_in(arguments.lines).each)
    first, last = min(counts), max(counts)
    if last - first >= MOST_STEPS:
        raise Stop(
            Status.ROW,
            f"{arguments.lines}: there are more than {MOST_STEPS:,} steps, so take a greater WIDTH",
        )
    desk.write(
        "value,scenarios\n",
        *(f"{step * width},{counts[step]}\n" for step in range(first, last + 1)),
    )
    return Status.DONE


def step_of(value: Decimal, width: int) -> int:
    """The step of a value, counted in widths."""
    return int(value.to_integral_value(ROUND_FLOOR)) // width
