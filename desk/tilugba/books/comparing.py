"""Two books compared: which contracts are new, gone or changed, and which flow lines are, over one
table.
"""

from __future__ import annotations

from collections.abc import Iterator

from ..program import Program
from ..texts.names import NameSet
from .book import Book, File, asked, book_of
from .flow_lines import differences
from .merging import meaning, refuse_other_origins
from .moving import advanced, judged, rows_for

USED = {"asset": NameSet.ASSET, "label": NameSet.LABEL, "template": NameSet.TEMPLATE}


def compared(program: Program, one: Book, two: Book, table: File | None) -> list[str]:
    """The lines of the differences: of contracts by name, and of flow lines, if there is a table,
    by day and then by name.
    """
    refuse_other_origins(one, two)
    fixings = judged(program, table, one, two)
    judged(program, table, two, one)
    day = max(one.start, two.start)
    first, second = (advanced(program, it, fixings, day).book for it in (one, two))
    return [
        *contract_lines(program, first, second),
        *(flow_lines(program, first, second, fixings) if table else ()),
    ]


def contract_lines(program: Program, one: Book, two: Book) -> Iterator[str]:
    before, after = spelled(program, one), spelled(program, two)
    for name in sorted({*before, *after}):
        if name not in before:
            yield f"new,{name}"
        elif name not in after:
            yield f"gone,{name}"
        elif before[name] != after[name]:
            yield f"changed,{name}"


def spelled(program: Program, book: Book) -> dict[str, tuple[str, ...]]:
    """Each contract in its canonical text, with what the names in it are declared to mean."""
    moved = book_of(File(book.name, asked(program, "migrate", book.file)))
    found: dict[str, tuple[str, ...]] = {}
    for _, statement in moved.reading.statements():
        if statement.word == "contract" and statement.term:
            uses = sorted(
                {
                    (it.role, it.text)
                    for node in statement.term.nodes()
                    for it in node.arguments
                    if it.role in USED
                }
            )
            known = [(USED[role], moved.declared.names(USED[role])[name]) for role, name in uses]
            meanings = [meaning(kind, declared, moved.declared) for kind, declared in known]
            found[statement.name] = (moved.contracts[statement.name].text, *meanings)
    return found


def flow_lines(program: Program, one: Book, two: Book, table: File) -> Iterator[str]:
    """What is paid by one book alone, and what by the other alone, from the day of both on."""
    flows = [
        asked(program, "flows", it.file, rows_for(it, table)).decode().splitlines()
        for it in (one, two)
    ]
    yield from differences(*flows).told(one.calendar)
