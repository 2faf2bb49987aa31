"""Runs a command of the program, and explains a fault: the place, what may stand there, a cure.

If the command ends with 0, what it prints goes through and nothing else is said. Otherwise nothing
is printed on standard output, but `check` with 1 keeps its verdicts; the explanation is on standard
error, in lines FILE:LINE:COLUMN: KIND by which editors jump. The status is that of the program.

With --receipt FILE a line of JSON is added to FILE: the words; name, size and SHA-256 of each file,
of the program and of what it printed; status, fault, time. `verify` compares them.
"""

from __future__ import annotations

import argparse
import os
import stat
from pathlib import Path

from ..desk import Desk
from ..program import Answer, Status, Stop
from ..files import read_file


def configure(parser: argparse.ArgumentParser) -> None:
    parser.usage = (
        "tilugba-desk explain [--program PROGRAM] [--seconds N] [--receipt FILE] COMMAND FILE.. "
        "[OPTION..]"
    )
    parser.add_argument("--receipt", metavar="FILE", type=Path, help="add a receipt to this file")
    parser.add_argument(
        "words",
        nargs=argparse.REMAINDER,
        metavar="COMMAND FILE..",
        help="the words of a command of the program",
    )


def run(arguments: argparse.Namespace, desk: Desk) -> int:
    words: list[str] = arguments.words
    # What can be read only once is read here.
    kept = {word: read_file(word) for word in words if is_pipe(word)}
    if arguments.receipt:
        answer = with_receipt(arguments.receipt, words, kept, desk)
    else:
        answer = desk.program.run(*(kept.get(word, word) for word in words))
    if answer.status == Status.DONE or (answer.status == Status.REFUSED and words[0] == "check"):
        desk.write(answer.output)
    if fault := answer.fault:
        try:
            desk.tell(explained(words, desk, answer, kept))
        except Stop as stop:  # a file went away, or the program: the fault stands
            desk.complain(fault.message)
            desk.complain(stop.message)
    return answer.status


def with_receipt(path: Path, words: list[str], kept: dict[str, bytes], desk: Desk) -> Answer:
    """The answer over the bytes of the files as they are read here, of which the receipt has the
    sums.
    """
    from ..command_line import WrongWords, read
    from ..engines import exchanged
    from ..receipts import Sum, add, of_program

    try:
        names = read(words).files if words[:1] != ["sample"] else []
    except WrongWords:
        names = []
    for name in names:
        if name not in kept and os.path.isfile(name):
            kept[name] = read_file(name)
    answer = desk.program.run(*exchanged(words, kept))
    files = [Sum.of(name, kept[name]) if name in kept else Sum(name) for name in names]
    fault = answer.fault.line if answer.fault else None
    program = Sum.of_file(desk.program.path)
    add(
        path,
        of_program(
            words, files, program, Sum.of(None, answer.output), answer.status, fault or None
        ),
    )
    return answer


def explained(words: list[str], desk: Desk, answer: Answer, kept: dict[str, bytes]) -> list[str]:
    """The lines of the explanations. What explains is loaded only for a fault."""
    from ..explanations.explaining import lines_of

    return lines_of(words, desk.program, answer, kept)


def is_pipe(name: str) -> bool:
    try:
        return stat.S_ISFIFO(os.stat(name).st_mode)
    except (OSError, ValueError):
        return False
