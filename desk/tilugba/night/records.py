"""What a night run leaves beside its results, for an auditor and for a monitor: receipts, and a
summary.

Both are in the folder of the run's own, so that what is beside it is results and faults alone.
"""

from __future__ import annotations

import json
import os
from collections import Counter
from collections.abc import Sequence

from ..program import Status
from ..receipts import PROGRAM, Receipt, Sum, now
from .books import OWN, Book
from .folder import Folder, remove
from .running import Outcome

RECEIPTS, SUMMARY = "receipts.jsonl", "summary.json"


def clear(folder: Folder) -> None:
    """Takes the summary of the run before away: while a run goes on there is none."""
    remove(folder.at(OWN, SUMMARY))


def put(
    folder: Folder, books: Sequence[Book], outcomes: Sequence[Outcome], program: str, seconds: float
) -> None:
    """Writes the receipts of all books, and then the summary."""
    pairs = list(zip(books, outcomes))
    receipts = "".join(receipt_of(folder, book, outcome, program).line for book, outcome in pairs)
    folder.put(folder.at(OWN, RECEIPTS), receipts.encode())
    folder.put(
        folder.at(OWN, SUMMARY), (json.dumps(summary_of(pairs, seconds), indent=2) + "\n").encode()
    )


def receipt_of(folder: Folder, book: Book, outcome: Outcome, program: str) -> Receipt:
    """The receipt of a book. What was read is told by the sums on which its result depends."""
    made = outcome.made
    return Receipt(
        by=PROGRAM,
        words=list(book.words),
        files=list(made.files.values()) if made else [Sum(it) for it in book.files.values()],
        program=made.program if made else Sum(program),
        output=outcome.printed if outcome.status else folder.results.summed(folder.at(book.name)),
        status=int(outcome.status),
        fault=outcome.line or None,
        time=now(outcome.time or None),
    )


def summary_of(pairs: Sequence[tuple[Book, Outcome]], seconds: float) -> dict[str, object]:
    """Counts by status, and the books that failed."""
    counts = Counter(int(outcome.status) for _, outcome in pairs)
    failed = [
        {
            "book": os.fsencode(book.path).decode("utf-8", "replace"),
            "status": int(outcome.status),
            "fault": outcome.line,
        }
        for book, outcome in pairs
        if outcome.status != Status.DONE
    ]
    return {
        "books": len(pairs),
        "done": sum(not it.was_done and it.status == Status.DONE for _, it in pairs),
        "done_before": sum(it.was_done for _, it in pairs),
        "failed": failed,
        "statuses": {str(status): counts[status] for status in sorted(counts)},
        "status": max(counts, default=0),
        "seconds": round(seconds, 3),
        "ended": now(),
    }
