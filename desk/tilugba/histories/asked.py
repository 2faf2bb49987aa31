"""What is asked of each contract of a book on many days, and what to do about a fault."""

from __future__ import annotations

from abc import ABC, abstractmethod
from collections.abc import Iterator, Sequence
from concurrent.futures import ThreadPoolExecutor
from dataclasses import dataclass
from functools import cached_property
from pathlib import Path

from ..asking.asks import Ask
from ..engines import Engine
from ..needs.probes import ASSET, PAYER, RECEIVER, head_of
from ..program import Answer, BadDay, BadRow, Fault, Status, Stop
from .deals import Book, Deal, Pair, compiled
from .rates import Curve, Curves

CODE, TABLE, CURVE = "code", "table", "curve"
# So many days are not asked for in vain.
MANY = 1_000
# A contract that is no contract of a book.
IDLE = "idle"


@dataclass(frozen=True)
class Days:
    """The days of the values, and the day up to which the last rates hold."""

    first: int
    last: int
    rates_to: int

    def __iter__(self) -> Iterator[int]:
        return iter(range(self.first, self.last + 1))

    def __len__(self) -> int:
        return max(self.last - self.first + 1, 0)


@dataclass(frozen=True)
class Coded:
    """A contract with its code."""

    deal: Deal
    code: bytes


@dataclass(frozen=True)
class Place:
    """What a call asks for: a contract on a day, between a pair."""

    day: int
    it: Coded
    pair: Pair


def coded(book: Book, engine: Engine, jobs: int) -> list[Coded]:
    """The contracts of a book, each compiled once."""
    with ThreadPoolExecutor(jobs) as pool:
        codes = pool.map(lambda deal: compiled(deal, engine), book.deals)
        return [Coded(deal, code) for deal, code in zip(book.deals, codes)]


class Asked(ABC):
    """The calls over a book, a table and the curves of some days.

    A call gets the rows that its contract can read. Both files are taken by the program as a whole
    before, and a call that ends with a fault is asked once more over whole files. So what is left
    out has no say in what is told.
    """

    command: str

    def __init__(
        self, book: Book, deals: Sequence[Coded], curves: Curves, days: Days, engine: Engine
    ) -> None:
        self.book, self.deals, self.curves = book, deals, curves
        self.days, self.engine = days, engine
        self.known: dict[Path, Curve] = {}

    @abstractmethod
    def table(self, deal: Deal, day: int) -> bytes:
        """The rows of the table that a contract can read, as they were known on a day."""

    @abstractmethod
    def whole(self, day: int) -> bytes:
        """All rows of the table, in the same way."""

    def words(self, pair: Pair, day: int) -> tuple[str, ...]:
        """The words of a call."""
        parties, assets = self.book.parties, self.book.assets
        return self.words_of(parties[pair.payer], parties[pair.receiver], assets[pair.asset], day)

    def words_of(self, payer: str, receiver: str, asset: str, day: int) -> tuple[str, ...]:
        """The words of a call by the names of its parties and its asset."""
        sides = f"--from={payer}", f"--to={receiver}", f"--asset={asset}"
        return (self.command, CODE, TABLE, CURVE, f"--at={day}", *sides)

    def answer(self, place: Place, table: bytes, curve: bytes) -> Answer:
        """The answer of a call over these files."""
        files = {CODE: place.it.code, TABLE: table, CURVE: curve}
        return self.engine.answer(self.words(place.pair, place.day), files)

    @cached_property
    def idle(self) -> bytes:
        """The code of a contract that pays nothing, with the labels of the book."""
        text = f"{head_of(self.book.labels)}contract {IDLE} = zero;\n"
        words = ["payoff", "book", f"--contract={IDLE}"]
        return self.engine.answer(words, {"book": text.encode()}).expected()

    def take_table(self, data: bytes) -> None:
        """Takes a table that the program takes, with the curve of the first day; both ends of the
        days are days of the program.
        """
        first = self.days.first
        curve = self.curves.data(first)
        self.refuse_rows(data, curve, first)
        self.known[self.curves.place(first)] = Curve(curve)
        self.refuse_day(data, curve)

    def refuse_rows(self, table: bytes, curve: bytes, day: int) -> None:
        """Raises a fault in a row of a table or of the curve of a day. They are taken with code
        that reads nothing, so neither the contracts nor the day have a say.
        """
        files = {CODE: self.idle, TABLE: table, CURVE: curve}
        words = self.words_of(PAYER, RECEIVER, ASSET, self.book.start)
        fault = self.engine.answer(words, files).fault
        if fault and isinstance(fault.cause, BadRow) and fault.cause.place == 3:
            raise Stop(fault.status, f"{self.curves.place(day)}: {fault.message}")
        if fault:
            raise fault

    def refuse_day(self, table: bytes, curve: bytes) -> None:
        """Raises the fault of a last day that is out of range, before a million days are asked
        for.
        """
        if self.deals and self.book.parties and self.book.assets and len(self.days) > MANY:
            place = Place(self.days.last, self.deals[0], Pair(0, 0, 0))
            fault = self.answer(place, table, curve).fault
            if fault and isinstance(fault.cause, BadDay):
                raise fault

    def curve_of(self, day: int) -> Curve:
        """The curve of a day, of which the program has taken the whole file."""
        path, data = self.curves.place(day), self.curves.data(day)
        if path not in self.known:
            self.refuse_rows(self.whole(day), data, day)
            self.known[path] = Curve(data)
        return self.known[path]

    def places(self) -> Iterator[Place]:
        """What is asked for, in order."""
        for day in self.days:
            for it in self.deals:
                for pair in it.deal.pairs:
                    yield Place(day, it, pair)

    def __len__(self) -> int:
        """How many calls there are."""
        return len(self.days) * sum(len(it.deal.pairs) for it in self.deals)

    def asks(self) -> Iterator[Ask]:
        """The calls, in the order of `places`."""
        for day in self.days:
            for it in self.deals:
                if it.deal.pairs:
                    yield from self.asks_of(day, it)

    def asks_of(self, day: int, it: Coded) -> Iterator[Ask]:
        table = self.table(it.deal, day)
        factors = self.curve_of(day).until(it.deal.last - day)
        files = ((CODE, it.code), (TABLE, table), (CURVE, factors))
        for pair in it.deal.pairs:
            yield Ask(self.words(pair, day), files)

    def settled(self, place: Place, answer: Answer) -> tuple[str, bool]:
        """What a call printed, and whether over whole files, as it is for what had a fault at
        first.
        """
        is_whole = answer.status != Status.DONE
        if is_whole:
            answer = self.answer(place, self.whole(place.day), self.curves.data(place.day))
        try:
            return answer.expected().decode("utf-8", "replace"), is_whole
        except Fault as fault:
            raise Stop(fault.status, self.said(place, fault)) from fault

    def said(self, place: Place, fault: Fault) -> str:
        """A fault with its day and contract."""
        return f"{self.book.calendar.text(place.day)}, {place.it.deal.name}: {fault.message}"
