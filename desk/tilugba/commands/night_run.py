"""A night run: one command on each of many books, over all processors.

The WORDs are those of the program, with {} for the book: `tilugba-desk night-run out flows {}
fixings.csv -- books/*.txt`. A {} within a word counts too, so `{}.csv` is a table beside the book.

In the folder OUT each book has, under its own name, what was printed if the run ended with 0, and
nothing else. If it did not, NAME.fault has the line `status N`, and below it what was printed if
that is final (statuses 1, 2, 5, 6, 7, 8, 10, 11, 12) or a file was not read (3). Any other status
is one of the machine: 4, 9, 13, that of a signal, and 70 for a run that --seconds ended. Those and
3 are tried once more, alone, when all else is done. A status of 4 also says that OUT cannot be
written to, or has a file of that name that no night run has written.

A book is passed over if its result is there, is as it was written, and was made by the same program
of the same words and bytes of files. Checksums tell it, which are in OUT/.night-run, and no times.
So a run that was stopped goes on where it was.

OUT/.night-run/receipts.jsonl has a receipt of each book in a line of JSON: the words; name, size
and SHA-256 of each file, of the program and of the output; status, fault, time (`verify` compares
them). OUT/.night-run/summary.json is there once a run has ended, for a monitor: how many books have
which status, those that failed, seconds. On a terminal a count is shown meanwhile.

At the end it prints a line for each book that failed, and one that counts. It ends with the
greatest status of a book, where a signal counts 128 more than its number. It ends with 70 if these
words, PROGRAM or OUT do not do, and with 75 if another run has OUT: then nothing was run. If a
signal stops it, it ends with 128 and the signal's number.
"""

from __future__ import annotations

import argparse
import os
import time
from collections.abc import Iterator, Sequence
from contextlib import closing, suppress

from ..counts import jobs
from ..desk import Desk, one_line
from ..night import records
from ..night.books import Book, books_of, refused, shown
from ..night.folder import Folder
from ..night.running import Night, Outcome, tried
from ..program import Status, Stop, reason_of
from ..progress import Progress
from ..signals import Signalled

# A status of words that do not do might be that of a book.
USAGE_STATUS = Status.DESK
LONGEST_LINE = 200


def configure(parser: argparse.ArgumentParser) -> None:
    parser.usage = (
        "tilugba-desk night-run [--program PROGRAM] [--seconds N] [--jobs N] OUT WORD.. -- BOOK.."
    )
    parser.add_argument(
        "--jobs",
        metavar="N",
        type=jobs,
        help="run N books at once; as many as there are processors otherwise",
    )
    parser.add_argument("out", metavar="OUT", help="the folder for the results")
    parser.add_argument(
        "words",
        metavar="WORD.. -- BOOK..",
        nargs=argparse.REMAINDER,
        help="the words of the program, and the books",
    )


def run(arguments: argparse.Namespace, desk: Desk) -> int:
    try:
        return run_books(arguments, desk)
    except Signalled as stopped:
        with suppress(Stop):
            desk.write(f"stopped by signal {stopped.number}; the same words go on from here\n")
        return stopped.status


def run_books(arguments: argparse.Namespace, desk: Desk) -> int:
    if "--" not in arguments.words[1:] or arguments.words[-1] == "--":
        raise refused("behind OUT come the words of the program, --, and at least one book")
    end = arguments.words.index("--", 1)
    books = books_of(arguments.words[end + 1 :], arguments.words[:end], arguments.out)
    program = tried(desk.program)
    begun = time.monotonic()
    with closing(Folder(arguments.out)) as folder, closing(
        Progress(desk.name, len(books), "books")
    ) as progress:
        jobs_at_once = arguments.jobs or len(os.sched_getaffinity(0))
        try:
            records.clear(folder)
            outcomes = Night(program, folder, progress.done).outcomes(books, jobs_at_once)
            records.put(folder, books, outcomes, str(program.path), time.monotonic() - begun)
        except OSError as error:
            raise Stop(
                Status.NOT_WRITTEN, f"{arguments.out} cannot be written to: {reason_of(error)}"
            ) from error
    greatest = max(it.status for it in outcomes)
    try:
        desk.write(*(f"{line}\n" for line in summary(books, outcomes)))
    except Stop as stop:
        desk.complain(stop.message)
        return max(greatest, stop.status)
    return greatest


def summary(books: Sequence[Book], outcomes: Sequence[Outcome]) -> Iterator[str]:
    """What failed, and how many did."""
    for book, outcome in zip(books, outcomes):
        if outcome.status:
            line = one_line(outcome.line[:LONGEST_LINE])
            yield f"{shown(book.name)}: status {outcome.status:d}{', ' + line if line else ''}"
    failed = sum(it.status != Status.DONE for it in outcomes)
    before = sum(it.was_done for it in outcomes)
    yield (
        f"{len(books)} book{'s' if len(books) > 1 else ''}: {len(books) - failed - before} done, "
        f"{before} done before, {failed} failed"
    )
