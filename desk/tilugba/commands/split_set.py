"""A table of scenarios in parts, so that each is a run of `scenarios` for itself.

FOLDER gets at most PARTS tables, `00001.csv` and so on, and is made if it is not there. Scenarios
keep their order and are spread evenly: each part has the header, those rows of its scenarios that
SET has, and each row of `*`. Records keep their order and their bytes. So what the program finds
wrong with a row of SET it finds in a part, at another number. SET may be of any length.

Ends with 0; 3 if SET is not read; 4 if a part is not written; 7 if SET is no table of scenarios, or
has no scenario; 70 if FOLDER has tables.
"""

from __future__ import annotations

import argparse
from collections.abc import Iterator
from pathlib import Path

from .. import tables
from ..counts import count_up_to
from ..desk import Desk
from ..program import Status, Stop, reason_of

EACH = b"*"
MOST_PARTS = 99_999


def configure(parser: argparse.ArgumentParser) -> None:
    parser.add_argument("set", metavar="SET", type=Path, help="a table of scenarios")
    parser.add_argument(
        "parts",
        metavar="PARTS",
        type=count_up_to(MOST_PARTS),
        help="how many tables there are to be at most",
    )
    parser.add_argument("folder", metavar="FOLDER", type=Path, help="where the tables go")


def run(arguments: argparse.Namespace, desk: Desk) -> int:
    folder: Path = arguments.folder
    parts = list(parts_of(arguments.set, arguments.parts))
    try:
        folder.mkdir(parents=True, exist_ok=True)
        if any(it.name.endswith(".csv") for it in folder.iterdir()):
            raise Stop(Status.DESK, f"{folder} has tables already")
        for number, part in enumerate(parts, 1):
            with open(folder / f"{number:05}.csv", "xb") as file:
                file.writelines(part)
    except OSError as error:
        raise Stop(Status.NOT_WRITTEN, f"{folder}: {reason_of(error)}") from error
    return Status.DONE


def parts_of(path: Path, most: int) -> Iterator[list[bytes]]:
    """The records of each part."""
    _, header, rows = tables.read_whole(path, tables.SCENARIOS)
    names = dict.fromkeys(it.fields[0] for it in rows if it.fields[0] != EACH)
    if not names:
        raise Stop(Status.ROW, f"{path}: it has no scenario")
    count = min(most, len(names))
    # Of the scenarios each part has as many as another, or one more.
    part_of = {name: place * count // len(names) for place, name in enumerate(names)}
    parts = [[header.data] for _ in range(count)]
    for row in rows:
        for part in parts if row.fields[0] == EACH else [parts[part_of[row.fields[0]]]]:
            part.append(row.data)
    yield from parts
