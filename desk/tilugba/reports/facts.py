"""What the program says of each contract of a book on a day. A fault of one contract is told in
its place.
"""

from __future__ import annotations

from collections.abc import Iterable, Sequence
from concurrent.futures import ThreadPoolExecutor
from dataclasses import dataclass
from decimal import Decimal

from ..answer_rows import Flow, advanced_of, flow_of, read_as
from ..diaries import left_of
from ..engines import Engine
from ..histories.deals import Book, Deal
from ..histories.sums import sums_of
from ..program import Acceptance, Answer, MissingFixing, Refusal, Verdict
from ..shocks.shocked import Row
from ..tables import FIXINGS


@dataclass(frozen=True)
class Facts:
    """A contract: its verdict, its payments as far as they can be told, what is missing then,
    and what is left on the day.
    """

    deal: Deal
    verdict: Verdict
    paid: tuple[Flow, ...] = ()
    waits: MissingFixing | None = None
    left: str = ""
    fault: str = ""

    @property
    def is_accepted(self) -> bool:
        return isinstance(self.verdict, Acceptance)


@dataclass(frozen=True)
class Asking:
    """A book, the rows of its table, the day of the report, and what answers."""

    book: Book
    rows: Sequence[Row]
    at: int
    engine: Engine

    def facts(self, deal: Deal, verdict: Verdict) -> Facts:
        """What is to be told of a contract."""
        if isinstance(verdict, Refusal):
            return Facts(deal, verdict)
        paid, waits, fault = self.payments(deal)
        left, why = self.left(deal)
        return Facts(deal, verdict, tuple(paid), waits, left, fault or why)

    def payments(self, deal: Deal) -> tuple[list[Flow], MissingFixing | None, str]:
        """The payments of a contract up to the day before the first fixing that is missing."""
        until: list[str] = []
        waits: MissingFixing | None = None
        while True:
            answer = self.asked("flows", deal, self.rows, *until)
            fault = answer.fault
            if fault is None:
                return [flow_of(line) for line in answer.text.splitlines()], waits, ""
            if not isinstance(fault.cause, MissingFixing):
                return [], waits, fault.message
            waits = fault.cause
            if waits.day <= self.book.start:
                return [], waits, ""
            until = [f"--until={waits.day - 1}"]

    def left(self, deal: Deal) -> tuple[str, str]:
        """What is left of a contract on the day, over what was known before it; or why that
        cannot be told.
        """
        known = [it for it in self.rows if it.day < self.at]
        answer = self.asked("advance", deal, known, f"--to={self.at}")
        if fault := answer.fault:
            return "", fault.message
        return left_of(read_as(advanced_of, answer.text).portfolio), ""

    def asked(self, command: str, deal: Deal, rows: Iterable[Row], *words: str) -> Answer:
        """What a command says of a book of one contract."""
        lines = [",".join(FIXINGS), *(f"{it.label},{it.day},{it.value}" for it in rows)]
        table = "".join(f"{line}\n" for line in lines)
        return self.engine.answer(
            [command, "book", "fix", *words], {"book": deal.text, "fix": table.encode()}
        )


def all_facts(asking: Asking, verdicts: Sequence[Verdict], jobs: int) -> list[Facts]:
    """What is to be told of each contract, in the order of the book."""
    with ThreadPoolExecutor(jobs) as pool:
        return list(pool.map(asking.facts, asking.book.deals, verdicts))


def balance(flows: Iterable[Flow]) -> dict[tuple[str, str], Decimal]:
    """What each party gets in each asset, less what it pays."""
    parts = (
        ((party, flow.asset), amount)
        for flow in flows
        for party, amount in ((flow.payer, flow.amount.copy_negate()), (flow.receiver, flow.amount))
    )
    return sums_of(parts)
