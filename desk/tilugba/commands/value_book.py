"""What the contracts of a book are worth, and their exact sum.

Each contract is compiled by `payoff` and valued by `value`, to which the options go. The files are
read once, so each may be a pipe. Prints a line NAME,VALUE for each contract, in the order of the
book, and then *,SUM.

A contract that gets no value has a line `NAME,status N,FAULT` in its place, and there is no sum. If
no contract can be named, as for a book that does not parse, the fault is all that is printed. Ends
with 0 if there is a sum, and otherwise with the greatest status of a run, where a signal counts 128
more than its number. A file is not read: 3. The output is not written whole: 4. The program does
not start, or prints no value: 70.
"""

from __future__ import annotations

import argparse
import os
from collections.abc import Sequence
from concurrent.futures import ThreadPoolExecutor
from dataclasses import dataclass
from decimal import Decimal

from .. import decimals
from ..desk import Desk
from ..program import Fault, Program, Status, Stop
from ..tables import read_file
from ..valuing import Question, add_question


@dataclass(frozen=True)
class Files:
    """The bytes of the files, of which all runs are."""

    book: bytes
    fixings: bytes
    curve: bytes


@dataclass(frozen=True)
class Outcome:
    """The value of a contract as it was printed, or a status with a fault in a line."""

    status: int
    text: str


def configure(parser: argparse.ArgumentParser) -> None:
    parser.add_argument("book", metavar="BOOK", help="a portfolio")
    parser.add_argument("fix", metavar="FIX", help="a table of fixings")
    parser.add_argument("curve", metavar="CURVE", help="a table of factors")
    parser.add_argument("--at", metavar="DAY", required=True, help="the day of the values")
    add_question(parser)


def run(arguments: argparse.Namespace, desk: Desk) -> int:
    question = Question.of(arguments)
    try:
        files = files_of(arguments)
        # `check` has a verdict on each contract, also on those that it refuses.
        names = [it.name for it in desk.program.run("check", files.book).verdicts()]
    except Stop as stop:
        desk.write(
            f"{stop.line}\n"
            if isinstance(stop, Fault) and stop.line
            else f"status {stop.status}, {stop.message}\n"
        )
        return stop.status
    outcomes = outcomes_of(desk.program, files, names, arguments.at, question)
    desk.write(*(f"{name},{it.text}\n" for name, it in zip(names, outcomes)))
    greatest = max((it.status for it in outcomes), default=Status.DONE)
    if greatest == Status.DONE:
        desk.write(f"*,{decimals.text(decimals.total(Decimal(it.text) for it in outcomes))}\n")
    return greatest


def files_of(arguments: argparse.Namespace) -> Files:
    """The files. One that is not read is a fault as the program tells it, by its place."""
    found: list[bytes] = []
    for place, path in enumerate((arguments.book, arguments.fix, arguments.curve), 1):
        try:
            found.append(read_file(path))
        except Stop as stop:
            raise Fault(Status.UNREAD, f"fault read {place}") from stop
    return Files(*found)


def outcomes_of(
    program: Program, files: Files, names: Sequence[str], day: str, question: Question
) -> list[Outcome]:
    with ThreadPoolExecutor(len(os.sched_getaffinity(0))) as pool:
        try:
            return list(
                pool.map(lambda name: outcome_of(program, files, name, day, question), names)
            )
        except BaseException:
            pool.shutdown(cancel_futures=True)
            raise


def outcome_of(program: Program, files: Files, name: str, day: str, question: Question) -> Outcome:
    try:
        code = program.run("payoff", files.book, "--contract", name).expected()
        return Outcome(Status.DONE, question.value(program, code, files.fixings, files.curve, day))
    except Stop as stop:
        return Outcome(stop.status, f"status {stop.status},{stop.message}")
