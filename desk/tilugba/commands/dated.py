"""A portfolio with numbers of days in place of dates.

In BOOK a date may be written in the place of a number of days: after(2026-06-30, ..),
within 2026-12-31, obs(LABEL, 2026-03-12), template T = 2026-08-03. It is counted from the day on
which its part stands, that of a template from the start. All else is printed as it is, with
comments and layout.

A date is a fault, with its place,

  - in `after` and `within` before that day, and in `obs` after it;
  - if BOOK has no origin;
  - where that day is not known: in a `then` branch, in the body of an accumulator, in a test that
    is looked at on several days, or behind a delay by a template, which may be set otherwise.

With --roll a date of an `after` that is closed is moved, with all that stands on it; dates of
`within`, `obs` and templates stay.

Ends with 0; 3 if BOOK is not read; 6 for a fault of the text or of a date, told as by `explain`.
"""

from __future__ import annotations

import argparse

from ..calendars import Mover, add_roll
from ..dating import DateFault, Dating
from ..desk import Desk
from ..explanations import text_faults
from ..explanations.notes import Note
from ..files import read_file
from ..program import Status
from ..texts.dated import DATED
from ..texts.reading import Reading


def configure(parser: argparse.ArgumentParser) -> None:
    parser.add_argument("book", metavar="BOOK", help="a portfolio with dates")
    add_roll(parser)


def run(arguments: argparse.Namespace, desk: Desk) -> int:
    mover = Mover.of(arguments)
    reading = Reading(read_file(arguments.book), DATED)
    if reading.fault:
        desk.tell(text_faults.note_of_fault(arguments.book, reading, reading.fault).told())
        return Status.TEXT
    try:
        text = Dating(reading, mover).text()
    except DateFault as fault:
        place = reading.source.place(fault.at)
        note = Note(arguments.book, "date", reading.source, place, (fault.why,))
        desk.tell(note.told())
        return Status.TEXT
    desk.write(text.encode("latin-1"))
    return Status.DONE
