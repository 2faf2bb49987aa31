"""A portfolio of payments: the declarations as they are written, and a contract of each name, as a
balanced tree.
"""

from __future__ import annotations

from bisect import bisect_right
from collections.abc import Sequence
from dataclasses import dataclass, field

from ..desk import Desk
from ..explanations.explaining import tell_fault
from ..files import read_file
from ..program import Fault, Refusal, Status, Stop
from ..texts.grammar import PORTFOLIO
from ..texts.reading import Reading
from .payments import Payment


class Told(Exception):
    """A fault that is told already, with its status."""

    def __init__(self, status: int) -> None:
        super().__init__(status)
        self.status = status


def declarations(path: str, desk: Desk) -> Reading:
    """A portfolio without contracts. A fault is told as by `explain`, and then raised."""
    data = read_file(path)
    answer = desk.program.run("check", data)
    if answer.status not in (Status.DONE, Status.REFUSED):
        raise Told(tell_fault(desk, ["check", path], answer, {path: data}))
    reading = Reading(data, PORTFOLIO)
    for name in reading.defined:
        what = f"it has the contract {name}, and declarations alone may be here"
        raise Stop(Status.TEXT, f"{path}: {what}")
    return reading


@dataclass
class Book:
    """A portfolio that grows, with the places in its text where each payment begins."""

    parts: list[str]
    length: int = 0
    places: list[int] = field(default_factory=list)
    payments: list[Payment] = field(default_factory=list)

    def put(self, text: str) -> None:
        self.parts.append(text)
        self.length += len(text)

    def put_tree(self, payments: Sequence[Payment]) -> None:
        """Puts payments as a balanced tree, whose first half has the odd one."""
        if len(payments) == 1:
            self.places.append(self.length)
            self.payments.append(payments[0])
            self.put(payments[0].term)
            return
        half = (len(payments) + 1) // 2
        self.put("both(")
        self.put_tree(payments[:half])
        self.put(", ")
        self.put_tree(payments[half:])
        self.put(")")

    def data(self) -> bytes:
        return "".join(self.parts).encode("latin-1")

    def payment_at(self, at: int) -> Payment | None:
        """The payment whose term has the byte at a place; the trees round the terms have none."""
        number = bisect_right(self.places, at) - 1
        is_within = number >= 0 and at < self.places[number] + len(self.payments[number].term)
        return self.payments[number] if is_within else None


def book_of(reading: Reading, payments: Sequence[Payment]) -> Book:
    """The portfolio of some payments, in the order in which contracts are first named."""
    by_name: dict[str, list[Payment]] = {}
    for payment in payments:
        by_name.setdefault(payment.contract, []).append(payment)
    book = Book([])
    book.put(reading.text)
    if not reading.text.endswith("\n"):
        book.put("\n")
    for name, some in by_name.items():
        book.put(f"contract {name} = ")
        book.put_tree(some)
        book.put(";\n")
    return book


def accepted(book: Book, desk: Desk) -> bytes:
    """The text of a portfolio, all contracts of which the program accepts."""
    data = book.data()
    answer = desk.program.run("check", data)
    refused = [it for it in answer.verdicts() if isinstance(it, Refusal)] if answer.fault else []
    if refused:
        raise refused_payment(book, data, refused[0])
    answer.expected()
    return data


def refused_payment(book: Book, data: bytes, refusal: Refusal) -> Stop:
    """Which record the program refuses."""
    reading = Reading(data, PORTFOLIO)
    number = reading.definition(refusal.name)
    term = reading.read(number).statement.term if number is not None else None
    if number is None or term is None:
        return Fault(Status.REFUSED, f"{refusal.name} is refused by the rule {refusal.rule}")
    at = next(it.at for place, it in enumerate(term.nodes()) if place == refusal.node)
    payment = book.payment_at(reading.segments[number].at + at)
    own = [it for it in book.payments if it.contract == refusal.name]
    if payment is None:
        what = f"the program refuses {refusal.name} by the rule {refusal.rule}"
        why = f"{what}: it has {len(own):,} payments"
        return Stop(Status.REFUSED, own[0].fields.fault("contract", why).message)
    name = "notional" if payment.fields.has("notional") else "amount"
    why = f"the program refuses the payment by the rule {refusal.rule}"
    return Stop(Status.REFUSED, payment.fields.fault(name, why).message)
