"""Keeps what happens to a book in its folder: an event by the program on the book of today, or a
correction of all that was kept.
"""

from __future__ import annotations

from ..program import Program, Status, Stop
from . import ids
from .book import File
from .changes import Changed
from .events import CORRECT, TABLE, Event, event, happens
from .flow_lines import Differences
from .folder import BOOK, CORRECTIONS, DUE, EVENT, IDS, REPLAYED, Kept, due_bytes, event_bytes
from .replaying import corrected, rows_of


def happened(program: Program, kept: Kept, it: Event, new_ids: File | None) -> Changed:
    """The book after an event, which is kept unless it changes nothing."""
    today = kept.book()
    if it.table:
        refuse_other_rows(program, kept, it.table)
    changed = happens(program, today, it, it.table)
    table = ids.after(kept.ids, it, new_ids)
    if (
        changed.book.file.data == today.file.data
        and not changed.due
        and table == (kept.ids and kept.ids.data)
    ):
        return changed
    contents = {EVENT: event_bytes(it), BOOK: changed.book.file.data, DUE: due_bytes(changed.due)}
    contents |= {file.name: file.data for file in it.files()}
    kept.keep(contents | ({IDS: table} if table is not None else {}))
    return changed


def refuse_other_rows(program: Program, kept: Kept, table: File) -> None:
    """Ends the command if a table that is kept has another value for a place: what it led to is
    wrong, and would stay.
    """
    calendar = kept.book().calendar
    new = rows_of(table, calendar).values
    for step in kept.steps:
        for (label, day), value in (
            rows_of(step.table, calendar).values.items() if step.table else ()
        ):
            if new.get((label, day), value) != value:
                mine = f"{table.name} has {new[label, day]} for {label} on {calendar.text(day)}"
                its = f"the table of step {step.number:04} has {value}"
                cure = f"keep the correction first, by `keep {kept.path} correct {table.name}`"
                raise Stop(Status.ROW, f"{mine}, and {its}: {cure}")


def correction(program: Program, kept: Kept, table: File) -> Differences:
    """What is gone from what was booked and what is new. It is kept, with the steps that are made
    anew, if there are any.
    """
    found = corrected(program, kept, table)
    if found.steps:
        words = event(CORRECT, table=table)
        lines = tuple(found.lines.told(kept.book().calendar))
        contents = {
            EVENT: event_bytes(words),
            TABLE: table.data,
            BOOK: found.steps[-1].book.data,
            CORRECTIONS: due_bytes(lines),
        }
        for step in found.steps:
            contents |= {
                f"{REPLAYED}/{step.number:04}/{name}": data
                for name, data in step.contents().items()
            }
        kept.keep(contents | ({IDS: kept.ids.data} if kept.ids else {}))
    return found.lines
