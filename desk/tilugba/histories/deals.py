"""The contracts of a book: between whom they pay, in which assets, until when, and what they may
read.
"""

from __future__ import annotations

from collections.abc import Iterable
from dataclasses import dataclass

from ..days import Calendar, day_of
from ..engines import Engine
from ..program import BadDay, Fault, Refusal, Status, Stop, Verdict
from ..texts.grammar import PORTFOLIO
from ..texts.names import Declarations, NameSet
from ..texts.reading import Reading
from ..texts.reads import payments_of, reads_of
from ..texts.trees import Term

# The first and the last day of each of some stretches of days, which are apart from each other and
# in order.
Stretches = tuple[tuple[int, int], ...]


@dataclass(frozen=True, order=True)
class Pair:
    """Two parties and an asset, by their places among the declared ones; the payer is declared
    before the receiver.
    """

    payer: int
    receiver: int
    asset: int


@dataclass(frozen=True)
class Deal:
    """A contract: its text behind the declarations, its pairs, its last day of payment, and the
    days of its reads by label.
    """

    name: str
    text: bytes
    pairs: tuple[Pair, ...]
    last: int
    reads: dict[str, Stretches]


@dataclass(frozen=True)
class Book:
    """A portfolio that parses, and its declarations as a text of their own."""

    data: bytes
    header: bytes
    calendar: Calendar
    start: int
    parties: tuple[str, ...]
    assets: tuple[str, ...]
    labels: Declarations
    deals: tuple[Deal, ...]

    @property
    def pairs(self) -> list[Pair]:
        """The pairs of all contracts, in declared order."""
        return sorted({pair for deal in self.deals for pair in deal.pairs})


def read_book(data: bytes, engine: Engine) -> Book:
    """The book of a text; one that the program does not accept ends the command with its fault."""
    book, verdicts = read_judged(data, engine)
    for it in verdicts:
        if isinstance(it, Refusal):
            raise Fault(Status.REFUSED, f"fault refused {it.name} {it.rule} node {it.node}")
    return book


def read_judged(data: bytes, engine: Engine) -> tuple[Book, list[Verdict]]:
    """The book of a text, and the verdict on each contract; a text that does not parse ends the
    command.
    """
    verdicts = engine.answer(["check", "book"], {"book": data}).verdicts()
    reading = Reading(data, PORTFOLIO)
    declared = reading.declared
    header = data[: reading.segments[len(reading.header) - 1].end]
    deals = []
    for number in reading.definitions:
        segment, statement = reading.segments[number], reading.read(number).statement
        if statement.term is not None:
            text = header + data[segment.at : segment.end]
            deals.append(deal_of(statement.name, statement.term, text, declared))
    names = [tuple(declared.names(it)) for it in (NameSet.PARTY, NameSet.ASSET)]
    calendar, start = Calendar(declared.origin), declared.start
    return Book(data, header, calendar, start, *names, declared, tuple(deals)), verdicts


def refuse_rows(book: Book, table: bytes, engine: Engine) -> None:
    """Raises the fault of a table of fixings that the program does not take with a book's
    declarations.
    """
    engine.answer(["flows", "book", "fix"], {"book": book.header, "fix": table}).expected()


def refuse_new_day(book: Book, day: int, engine: Engine) -> None:
    """Raises the fault of a day to which the program does not advance, before all days up to it are
    asked for.
    """
    files = {"book": book.header, "fix": b"label,day,value\n"}
    fault = engine.answer(["advance", "book", "fix", f"--to={day}"], files).fault
    if fault and isinstance(fault.cause, BadDay):
        raise fault


def deal_of(name: str, term: Term, text: bytes, declared: Declarations) -> Deal:
    start = declared.start
    paid = list(payments_of(term, declared))
    reads: dict[str, list[tuple[int, int]]] = {}
    for label, days in reads_of(term, declared):
        reads.setdefault(label, []).append((start + days.first, start + days.last))
    return Deal(
        name,
        text,
        pairs_of((it.term for it in paid), declared),
        start + max((it.days.last for it in paid), default=0),
        {label: joined(days) for label, days in reads.items()},
    )


def pairs_of(payments: Iterable[Term], declared: Declarations) -> tuple[Pair, ...]:
    """The pairs between which there are payments. What a party pays to itself is no flow."""
    parties, assets = list(declared.names(NameSet.PARTY)), list(declared.names(NameSet.ASSET))
    found: set[Pair] = set()
    for term in payments:
        payer, receiver = sorted(parties.index(term.told(it)[0]) for it in ("payer", "receiver"))
        if payer != receiver:
            found.add(Pair(payer, receiver, assets.index(term.told("asset")[0])))
    return tuple(sorted(found))


def joined(days: Iterable[tuple[int, int]]) -> Stretches:
    """Stretches of days, of which those that touch are one."""
    found: list[tuple[int, int]] = []
    for first, last in sorted(days):
        if found and first <= found[-1][1] + 1:
            found[-1] = found[-1][0], max(found[-1][1], last)
        else:
            found.append((first, last))
    return tuple(found)


def compiled(deal: Deal, engine: Engine) -> bytes:
    """The code of a contract."""
    return engine.answer(
        ["payoff", "book", f"--contract={deal.name}"], {"book": deal.text}
    ).expected()


def day_number(book: Book, word: str) -> int:
    """The number of a day of the command line; a date needs the book's origin."""
    day = day_of(word)
    number = None if day is None else book.calendar.number(day)
    if number is None:
        told = "is no day" if day is None else "is a date, and the book has no origin"
        raise Stop(Status.USAGE if day is None else Status.DAY, f"{word} {told}")
    return number
