"""Warnings of what is right and probably not meant, in a portfolio and a table of fixings. Verdicts
are the program's alone.
"""

from __future__ import annotations

from collections.abc import Iterable, Iterator
from dataclasses import dataclass
from decimal import Decimal
from functools import cached_property

from .days import Calendar
from .explanations.notes import counted
from .explanations.rows import Table, serial_date
from .program import Acceptance, Verdict
from .tables import Record, records
from .texts.names import Declared, NameSet
from .texts.offers import number_told
from .texts.reading import Reading
from .texts.reads import Days, payments_of, placed, reads_of
from .texts.tokens import Place
from .texts.trees import Statement, Term

# Bounds are wide if one is so many times what the table has; a day is far if it is so many days
# outside what contracts read.
WIDE, FAR = 100, 3_660


@dataclass(frozen=True, order=True)
class Remark:
    """A warning: the place of what it is about, a kind in one word, and what is probably not meant.
    """

    place: Place
    kind: str
    said: str

    def told(self, file: str) -> str:
        return f"{file}:{self.place.line}:{self.place.column}: {self.kind}: {self.said}"


@dataclass(frozen=True)
class Contract:
    """A contract of a book, with where its places count from."""

    statement: Statement
    base: int
    term: Term

    @property
    def name(self) -> str:
        return self.statement.name


class Book:
    """A portfolio without a fault, and what its days are."""

    def __init__(self, reading: Reading, holidays: frozenset[int]) -> None:
        self.reading = reading
        self.calendar = Calendar(reading.declared.origin, holidays)
        self.contracts = [
            Contract(
                statement, base, statement.term
            ) for base, statement in reading.statements() if statement.term is not None
        ]

    @cached_property
    def reads(self) -> dict[str, Days]:
        """The labels that contracts may read, each with the first and the last day of a read,
        counted from the start.
        """
        found: dict[str, Days] = {}
        for contract in self.contracts:
            for label, days in reads_of(contract.term, self.reading.declared):
                before = found.get(label, days)
                found[label] = Days(min(before.first, days.first), max(before.last, days.last))
        return found

    def warning(self, at: int, kind: str, said: str) -> Remark:
        return Remark(self.reading.source.place(at), kind, said)

    def day(self, from_start: int) -> int:
        """The number of a day that counts from the day on which contracts begin."""
        return self.reading.declared.start + from_start


def warnings_of(book: Book, verdicts: Iterable[Verdict]) -> list[Remark]:
    """The warnings of a portfolio, with the verdicts that the program gives its contracts."""
    found = [*unused_names(book), *unused_bindings(book)]
    for contract in book.contracts:
        found += [*closed_days(book, contract), *own_payments(book, contract)]
    found += empty_contracts(book, verdicts)
    return sorted(set(found))


# ---- names


def unused_names(book: Book) -> Iterator[Remark]:
    """Declared names that no contract has."""
    roles = {
        NameSet.PARTY: ("payer", "receiver"),
        NameSet.ASSET: ("asset",),
        NameSet.LABEL: ("label",),
        NameSet.TEMPLATE: ("template",),
    }
    used = {
        (it.role, it.text)
        for contract in book.contracts
        for term in contract.term.nodes()
        for it in term.arguments
    }
    for base, statement in book.reading.statements():
        kind = next((it for it in roles if statement.word in WORDS[it]), None)
        for declared in statement.declared if kind else ():
            if kind and not any((role, declared.name) in used for role in roles[kind]):
                yield book.warning(
                    base + declared.at,
                    "unused",
                    f"no contract has the {kind.value} {declared.name}",
                )


WORDS = {
    NameSet.PARTY: ("party",),
    NameSet.ASSET: ("asset",),
    NameSet.LABEL: ("num", "flag"),
    NameSet.TEMPLATE: ("template",),
}


def unused_bindings(book: Book) -> Iterator[Remark]:
    """Names that a `let` or an `acc` binds and nothing uses."""
    for contract in book.contracts:
        used = {it.binder for it in contract.term.nodes()}
        for term in contract.term.nodes():
            binder = term.arguments[0] if term.form in ("let", "acc") else None
            if binder and binder.at not in used:
                yield book.warning(
                    contract.base + binder.at,
                    "unused",
                    f"nothing uses {binder.text}, which `{term.form}` binds",
                )


# ---- days


def closed_days(book: Book, contract: Contract) -> Iterator[Remark]:
    """Payments and observations of one day that is a weekend or a holiday. What may be on any of
    several days is passed over.
    """
    declared = book.reading.declared
    for payment in payments_of(contract.term, declared):
        if payment.days.first == payment.days.last:
            yield from closed_day(book, contract, payment.term, payment.days.first, "pays")
    for found in placed(contract.term, declared):
        if found.term.form == "obs" and found.days.first == found.days.last:
            day = found.days.first + int(found.term.told("offset")[0])
            yield from closed_day(
                book, contract, found.term, day, f"observes {found.term.told('label')[0]}"
            )


def closed_day(book: Book, contract: Contract, term: Term, from_start: int, does: str) -> Iterator[
    Remark
]:
    day = book.day(from_start)
    if why := book.calendar.why_closed(day):
        kind = "holiday" if why == "a holiday" else "weekend"
        yield book.warning(
            contract.base + term.at,
            kind,
            f"{contract.name} {does} on {book.calendar.text(day)}, {why}",
        )


# ---- payments


def own_payments(book: Book, contract: Contract) -> Iterator[Remark]:
    """A party that pays itself."""
    for term in contract.term.nodes():
        if term.form == "pay" and term.told("payer") == term.told("receiver"):
            yield book.warning(
                contract.base + term.at,
                "itself",
                f"{term.told('payer')[0]} pays itself, which is no flow",
            )


def empty_contracts(book: Book, verdicts: Iterable[Verdict]) -> Iterator[Remark]:
    """Contracts that are `zero`, and those of which the program says that they pay nothing."""
    nothing = {it.name for it in verdicts if isinstance(it, Acceptance) and Decimal(it.total) == 0}
    for contract in book.contracts:
        at = contract.base + contract.statement.declared[0].at
        if contract.term.form == "zero":
            yield book.warning(at, "zero", f"{contract.name} is zero, so nothing is left of it")
        elif contract.name in nothing:
            yield book.warning(
                at, "nothing", f"{contract.name} never pays anything: its total is 0"
            )


# ---- the table


def table_warnings(book: Book, table: Table) -> list[Remark]:
    """The warnings of a table of fixings that goes with the book, but for those of bounds, which
    have places in the book.
    """
    found = []
    told: set[str] = set()
    for record in list(records(table.data))[1:]:
        label = record.texts[0]
        if label not in book.reads and label not in told:
            told.add(label)
            found.append(Remark(Place(record.line, 1), "unread", f"no contract reads {label}"))
        found += far_day(book, table, record)
    return sorted(found)


def far_day(book: Book, table: Table, record: Record) -> Iterator[Remark]:
    """A day that is far outside the days that contracts read, as a spreadsheet's number of a date
    is.
    """
    day = record.texts[1]
    if not day.lstrip("-").isdigit():
        return
    first = min((it.first for it in book.reads.values()), default=0)
    last = max((it.last for it in book.reads.values()), default=0)
    if not book.day(first) - FAR <= int(day) <= book.day(last) + FAR:
        alone = Table(
            table.file, table.role, table.book, b"label,day,value\n" + record.data, table.declared
        )
        serial = serial_date(alone, record.texts[0], book.calendar)
        why = (
            serial.partition("which is ")[2] if serial else "far from all days that contracts read"
        )
        yield Remark(Place(record.line, len(record.fields[0]) + 2), "day", f"day {day} is {why}")


def wide_bounds(book: Book, table: Table) -> list[Remark]:
    """Labels whose bounds are a hundred times as far out as all that the table has of them."""
    seen: dict[str, list[Decimal]] = {}
    for record in list(records(table.data))[1:]:
        if record.texts[0] in book.reading.declared.numbers():
            seen.setdefault(record.texts[0], []).append(Decimal(record.texts[2]))
    found = []
    for base, statement in book.reading.statements():
        for declared in statement.declared if statement.word == "num" else ():
            said = too_wide(declared, seen.get(declared.name, []))
            if said:
                found.append(book.warning(base + declared.at, "bounds", said))
    return found


def too_wide(label: Declared, values: list[Decimal]) -> str | None:
    if not values or label.low is None or label.high is None or label.decimals is None:
        return None
    unit = Decimal(1).scaleb(-label.decimals)
    greatest = max(abs(it) for it in values)
    if greatest == 0 or max(abs(label.low), abs(label.high)) * unit < WIDE * greatest:
        return None
    low, high = number_told(label.low, label.decimals), number_told(label.high, label.decimals)
    return (
        f"{label.name} may be from {low} to {high}, and in {counted(len(values), 'record')} of the "
        f"table it is from {min(values)}"
        f" to {max(values)}: totals count the bounds"
    )


