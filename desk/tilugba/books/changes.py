"""Contracts that are added, amended, dropped or pruned, and two books that become one.

Each gives a new text. Statements that it does not touch stay as they are, with their comments,
unless the book itself is advanced.
"""

from __future__ import annotations

from collections.abc import Sequence
from dataclasses import dataclass, replace

from ..program import Program, Refusal, Status, Stop
from ..texts.rewriting import Piece
from .book import Book, File, asked, near
from .flow_lines import by_day
from .merging import merged, refuse_other_heads, refuse_other_meanings, with_declarations
from .moving import advanced, judged, on_day


@dataclass(frozen=True)
class Changed:
    """A book after a change, what was due before its day, as flow lines, and the names of contracts
    that were taken out.
    """

    book: Book
    due: tuple[str, ...] = ()
    gone: tuple[str, ...] = ()

    def text(self) -> bytes:
        """The text, with what was due as comments before it."""
        return "".join(f"# {line}\n" for line in self.due).encode() + self.book.file.data


def unknown(book: Book, name: str) -> Stop:
    said = f"{book.name}: there is no contract {name}{near(name, book.contracts)}"
    return Stop(Status.UNKNOWN, said)


def added(program: Program, book: Book, deals: Book, table: File | None) -> Changed:
    """The book with new contracts, written for its day."""
    refuse_other_heads(book, deals)
    refuse_other_meanings(book, deals)
    for name in deals.contracts:
        if name in book.contracts:
            raise Stop(
                Status.REFUSED,
                f"{book.name} has a contract {name}, and so has {deals.name}: names are taken once",
            )
    contracts, due = on_day(program, deals, judged(program, table, book, deals), book.start)
    new = book.renamed(f"{deals.name} in {book.name}").rewritten(merged(book, deals, contracts))
    accepted(program, new, list(deals.contracts), deals)
    return Changed(new, tuple(by_day(due, book.calendar)))


def amended(program: Program, book: Book, deals: Book, table: File | None) -> Changed:
    """The book with contracts in the place of those of their names."""
    refuse_other_heads(book, deals)
    refuse_other_meanings(book, deals)
    for name in deals.contracts:
        if name not in book.contracts:
            raise unknown(book, name)
    contracts, due = on_day(program, deals, judged(program, table, book, deals), book.start)
    new = {it.name: it for it in contracts}
    pieces = with_declarations(book, deals)
    statements = [
        in_place(it, new[it.name]) if it.word == "contract" and it.name in new else it
        for it in pieces.statements
    ]
    changed = book.renamed(f"{deals.name} in {book.name}").rewritten(
        pieces.with_statements(statements)
    )
    accepted(program, changed, list(new), deals)
    return Changed(changed, tuple(by_day(due, book.calendar)))


def in_place(old: Piece, new: Piece) -> Piece:
    """A statement that stands where another one stood."""
    begins = "\n" if old.text[:1] in (" ", "\t") and not old.text.endswith("\n") else ""
    return replace(new, text=begins + new.text).ended()


def accepted(program: Program, book: Book, names: Sequence[str], source: Book) -> None:
    """Ends the command if the program refuses one of these contracts as it is in the book."""
    answer = program.run("check", book.file.data)
    if answer.status not in (Status.DONE, Status.REFUSED):
        asked(program, "check", book.file)
    for verdict in answer.verdicts():
        if isinstance(verdict, Refusal) and verdict.name in names:
            rule = f"{verdict.rule} node {verdict.node}"
            said = f"{verdict.name} is refused as it stands in the book: {rule}"
            raise Stop(Status.REFUSED, f"{source.name}: {said}")


def dropped(book: Book, names: Sequence[str]) -> Changed:
    """The book without some contracts."""
    for name in names:
        if name not in book.contracts:
            raise unknown(book, name)
    return without(book, set(names))


def pruned(book: Book) -> Changed:
    """The book without those contracts that are `zero`."""
    return without(book, {name for name, form in book.terms() if form == "zero"})


def without(book: Book, names: set[str]) -> Changed:
    kept = [it for it in book.pieces.statements if it.word != "contract" or it.name not in names]
    gone = tuple(name for name in book.contracts if name in names)
    return Changed(book.rewritten(book.pieces.with_statements(kept)), gone=gone)


def united(program: Program, one: Book, two: Book, table: File | None) -> Changed:
    """Two books as one, on the day of the later one; the other one is advanced."""
    refuse_other_heads(one, two)
    refuse_other_meanings(one, two)
    for name in two.contracts:
        if name in one.contracts:
            raise Stop(Status.REFUSED, f"both {one.name} and {two.name} have a contract {name}")
    fixings = judged(program, table, one, two)
    day = max(one.start, two.start)
    first, second = (advanced(program, it, fixings, day) for it in (one, two))
    new = first.book.rewritten(merged(first.book, second.book, second.book.contracts.values()))
    return Changed(new, tuple(by_day(first.due + second.due, one.calendar)))
