"""Compares files with receipts, or runs again what they say.

RECEIPTS is a file of receipts, a line of JSON each, as `night-run`, `explain --receipt` and
`history --receipt` write them. Names of files are those of the receipts, from the folder in which
`verify` is run, or from --folder. A receipt stands if each of its files, and its output if that is
in a file, has the size and the SHA-256 that the receipt says. A result of a night run is looked
for in the folder OUT, whose own folder has the receipts.

With --again each receipt whose files stand is run again, and stands if the status and the output
are the same. It is said if the program that is found here is another one than that of the
receipt. What the desk has printed is made again by this desk.

Each OUTPUT is a file that you have: it stands if some receipt has its sum. With --again its lines
are looked for in what was printed again, so each line that no receipt makes is told by its number.

Prints a line for each receipt and each OUTPUT that does not stand, and one that counts. With --all
it has a line for each. Ends with 0 if all stand, and with 1 if one does not; 3 if a file of the
words is not read; 7 if RECEIPTS has a line that is no receipt.
"""

from __future__ import annotations

import argparse
from pathlib import Path

from ..desk import Desk, one_line
from ..files import read_file
from ..program import Status
from ..receipts import receipts_in
from ..verifying import Verifying, outcomes_of


def configure(parser: argparse.ArgumentParser) -> None:
    parser.add_argument("receipts", metavar="RECEIPTS", type=Path, help="a file of receipts")
    parser.add_argument("outputs", metavar="OUTPUT", nargs="*", type=Path, help="what was printed")
    parser.add_argument("--folder", type=Path, help="the folder from which names of files go")
    parser.add_argument("--again", action="store_true", help="run again what receipts say")
    parser.add_argument("--all", action="store_true", help="have a line for each that stands too")


def run(arguments: argparse.Namespace, desk: Desk) -> int:
    path: Path = arguments.receipts
    receipts = list(receipts_in(path, read_file(path)))
    outputs = {it: read_file(it) for it in arguments.outputs}
    verifying = Verifying(desk, path, arguments.folder or Path(), arguments.again)
    found = list(outcomes_of(verifying, receipts, outputs))
    desk.write(*(f"{one_line(it.line)}\n" for it in found if arguments.all or not it.stands))
    failed = sum(not it.stands for it in found)
    stand = len(found) - failed
    counts = f"{stand} stand{'s' * (stand == 1)}, {failed} do{'es' * (failed == 1)} not"
    desk.write(f"{counts}\n")
    return Status.REFUSED if failed else Status.DONE
