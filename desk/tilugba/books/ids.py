"""Tables of ids: a record `name,id,..` for each contract, with further columns as one likes. They
are kept beside a book.
"""

from __future__ import annotations

from collections.abc import Iterable
from dataclasses import dataclass, field

from ..program import Status, Stop
from ..tables import NAME, Record, lines_of, records
from .book import Book, File
from .events import AMEND, Event

FIRST = "name"


@dataclass(frozen=True)
class Ids:
    """The columns behind the name, and what they say of each contract."""

    columns: tuple[str, ...]
    rows: dict[str, tuple[str, ...]] = field(default_factory=dict)

    def of(self, name: str, columns: Iterable[str]) -> tuple[str, ...]:
        """What these columns say of a contract; a column that this table lacks is empty."""
        known = dict(zip(self.columns, self.rows.get(name, ())))
        return tuple(known.get(it, "") for it in columns)

    def only(self, names: Iterable[str]) -> Ids:
        """The rows of these contracts."""
        kept = set(names)
        return Ids(
            self.columns, {name: values for name, values in self.rows.items() if name in kept}
        )

    def data(self) -> bytes:
        rows = ((name, *values) for name, values in self.rows.items())
        return "".join(lines_of([(FIRST, *self.columns), *rows])).encode()


def read(table: File) -> Ids:
    """A table of ids. Each contract has one record at most."""
    found = list(records(table.data))
    columns = texts_of(table, found[0])[1:] if found else ()
    if (
        not columns
        or found[0].fields[0] != FIRST.encode()
        or len(set(columns)) < len(columns)
        or "" in columns
    ):
        raise Stop(
            Status.ROW,
            f"{table.name}: record 1 is not a header {FIRST},id,.. with a name for each column",
        )
    rows: dict[str, tuple[str, ...]] = {}
    numbers: dict[str, int] = {}
    for record in found[1:]:
        name, *values = texts_of(table, record)
        where = f"{table.name}: record {record.number}"
        if len(values) != len(columns):
            raise Stop(Status.ROW, f"{where} does not have {len(columns) + 1} fields")
        if not NAME.fullmatch(name):
            raise Stop(Status.ROW, f"{where}: {name!r} is no name of a contract")
        if name in rows:
            raise Stop(Status.ROW, f"{where}: {name} has record {numbers[name]} already")
        rows[name], numbers[name] = tuple(values), record.number
    return Ids(columns, rows)


def texts_of(table: File, record: Record) -> tuple[str, ...]:
    try:
        return tuple(it.decode("utf-8") for it in record.fields)
    except UnicodeDecodeError as error:
        raise Stop(Status.ROW, f"{table.name}: record {record.number} is not UTF-8") from error


def of_book(table: File, book: Book) -> Ids:
    """A table of ids, each of which is that of a contract of a book."""
    found = read(table)
    for name in found.rows:
        if name not in book.contracts:
            raise Stop(Status.UNKNOWN, f"{table.name}: there is no contract {name} in {book.name}")
    return found


def joined(one: Ids, two: Ids, names: tuple[str, str], replaces: bool = False) -> Ids:
    """The ids of two tables, whose files have these names. A contract that has other ids in both is
    refused, unless they are replaced.
    """
    columns = tuple(dict.fromkeys((*one.columns, *two.columns)))
    rows = {name: one.of(name, columns) for name in one.rows}
    for name in two.rows:
        values = two.of(name, columns)
        if not replaces and rows.get(name, values) != values:
            said = f"{names[1]} says something else of {name} than {names[0]}"
            raise Stop(Status.REFUSED, f"{said}, perhaps of an earlier contract")
        rows[name] = values
    return Ids(columns, rows)


def after(kept: File | None, event: Event, new: File | None) -> bytes | None:
    """The table that is kept after an event that brings one, or as it was."""
    book = event.other_book()
    if new is None or book is None:
        return kept.data if kept else None
    added = of_book(new, book)
    if kept is None:
        return added.data()
    return joined(read(kept), added, (kept.name, new.name), event.kind == AMEND).data()
