"""A book in parts: by the counterparty of each contract, or by a table of names."""

from __future__ import annotations

import re
from collections.abc import Iterable
from dataclasses import replace

from ..program import Status, Stop
from ..tables import records
from ..texts.names import NameSet
from .book import Book, File, near

OTHER = "other"
PARTS = ("name", "part")
PART = re.compile(r"[A-Za-z_][A-Za-z0-9_]{0,63}")
DUE = re.compile(r"#[ ]([A-Za-z_][A-Za-z0-9_]*),[0-9-]+(?:,[A-Za-z_][A-Za-z0-9_]*){3},[0-9.]+")


def by_counterparty(book: Book, own: str) -> dict[str, str]:
    """The part of each contract: its one counterparty, or the rest if it has none or several, or is
    not the own party's.
    """
    parties = book.declared.names(NameSet.PARTY)
    if own not in parties:
        said = f"{book.name}: there is no party {own}{near(own, parties)}"
        raise Stop(Status.UNKNOWN, said)
    parts = {name: part_of(found, own) for name, found in parties_of(book)}
    if OTHER in parties and OTHER in parts.values():
        raise Stop(
            Status.REFUSED,
            f"{book.name} has a party {OTHER}, which is the name of the part for the rest:"
            " split it by a table",
        )
    return parts


def part_of(parties: set[str], own: str) -> str:
    others = parties - {own}
    return others.pop() if own in parties and len(others) == 1 else OTHER


def parties_of(book: Book) -> Iterable[tuple[str, set[str]]]:
    """The parties that pay or receive in each contract."""
    for _, statement in book.reading.statements():
        if statement.word == "contract" and statement.term:
            payments = (it for it in statement.term.nodes() if it.form == "pay")
            yield statement.name, {name for it in payments for name in it.told("payer", "receiver")}


def by_table(book: Book, table: File) -> dict[str, str]:
    """The part of each contract by a table of names; one without a row goes to the rest."""
    found = list(records(table.data))
    if not found or found[0].texts != PARTS:
        raise Stop(Status.ROW, f"{table.name}: record 1 is not the header {','.join(PARTS)}")
    parts: dict[str, str] = {}
    for record in found[1:]:
        where = f"{table.name}: record {record.number}"
        if len(record.fields) != len(PARTS):
            raise Stop(Status.ROW, f"{where} does not have {len(PARTS)} fields")
        name, part = record.texts
        if name not in book.contracts:
            raise Stop(Status.ROW, f"{where}: there is no contract {name} in {book.name}")
        if not PART.fullmatch(part):
            raise Stop(
                Status.ROW, f"{where}: {part!r} is no name of a part: letters, digits and `_`"
            )
        if parts.setdefault(name, part) != part:
            raise Stop(Status.ROW, f"{where}: {name} is in the part {parts[name]} already")
    return {name: parts.get(name, OTHER) for name in book.contracts}


def split(book: Book, parts: dict[str, str]) -> dict[str, Book]:
    """The book of each part, with all declarations. A due line goes with its contract, or with the
    rest if that is gone.
    """
    lines = book.pieces.head.splitlines(keepends=True)
    due = {parts.get(found[1], OTHER) for line in lines if (found := DUE.fullmatch(line.rstrip()))}
    return {part: part_book(book, parts, part, lines) for part in sorted({*parts.values(), *due})}


def part_book(book: Book, parts: dict[str, str], part: str, head: Iterable[str]) -> Book:
    """The declarations with the contracts of a part, below those lines of the head that are not due
    in another one.
    """
    kept = [it for it in book.pieces.statements if it.word != "contract" or parts[it.name] == part]
    above = [
        line
        for line in head
        if not (found := DUE.fullmatch(line.rstrip())) or parts.get(found[1], OTHER) == part
    ]
    return book.rewritten(replace(book.pieces, head="".join(above), statements=tuple(kept)))
