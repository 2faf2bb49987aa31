"""The life of contracts, day by day: what each read, what it paid, and what is left of it.

What was read is asked of the program: a row was read if, without it, the answer is another.
"""

from __future__ import annotations

import re
from collections.abc import Iterator, Sequence
from dataclasses import dataclass, field

from .answer_rows import Flow, advanced_of, read_as
from .days import Calendar
from .engines import Engine
from .histories.deals import Book, Deal, deal_of
from .program import Answer, Fault, Status, Stop
from .shocks.shocked import Row
from .texts.grammar import PORTFOLIO
from .texts.reading import Reading

HEADER = "label,day,value\n"
LEFT = re.compile(r"^contract [A-Za-z0-9_]+ = (.*);\n\Z", re.M)


@dataclass(frozen=True)
class Step:
    """A day of a contract: the rows that it read, what it paid, and its text on the next day."""

    day: int
    read: list[Row]
    paid: list[Flow]
    left: str

    @property
    def is_idle(self) -> bool:
        """Whether only time went by."""
        return not self.read and not self.paid


@dataclass
class Diary:
    """A contract's days. `left` is its text on the first day."""

    deal: Deal
    left: str = ""
    steps: list[Step] = field(default_factory=list)


@dataclass(frozen=True)
class Living:
    """A book, the rows that are observed, and what is asked."""

    book: Book
    rows: Sequence[Row]
    engine: Engine

    def diary(self, deal: Deal, to: int) -> Diary:
        """The days of a contract from the book's start to before a day."""
        text = self.advanced(deal.text, [], self.book.start)
        diary = Diary(deal, left_of(text))
        for day in range(self.book.start, to):
            step, text = self.step(diary, text, day)
            diary.steps.append(step)
        return diary

    def step(self, diary: Diary, text: str, day: int) -> tuple[Step, str]:
        """What a contract does on a day, and the portfolio that is left of it."""
        known = [it for it in self.rows if it.day <= day]
        answer = self.asked(text, known, day + 1)
        try:
            told = answer.expected().decode("utf-8", "replace")
        except Fault as fault:
            place = f"{self.book.calendar.text(day)}, {diary.deal.name}"
            raise Stop(fault.status, f"{place}: {fault.message}") from fault
        advanced = read_as(advanced_of, told)
        read = [
            it
            for it in self.candidates(diary, known, text)
            if self.is_read(it, known, text, answer, day)
        ]
        return Step(day, read, list(advanced.due), left_of(advanced.portfolio)), advanced.portfolio

    def candidates(self, diary: Diary, known: Sequence[Row], text: str) -> list[Row]:
        """The rows that what is left may read, and that were not read before."""
        before = {row for step in diary.steps for row in step.read}
        reads = self.reads(text) if known else {}
        return [
            row
            for row in known
            if row not in before
            and any(first <= row.day <= last for first, last in reads.get(row.label, ()))
        ]

    def reads(self, text: str) -> dict[str, tuple[tuple[int, int], ...]]:
        """What a portfolio of one contract may read."""
        reading = Reading(text.encode(), PORTFOLIO)
        terms = [it.term for _, it in reading.statements() if it.term is not None]
        return deal_of("", terms[0], b"", reading.declared).reads if terms else {}

    def is_read(self, row: Row, known: Sequence[Row], text: str, answer: Answer, day: int) -> bool:
        return self.asked(text, [it for it in known if it != row], day + 1) != answer

    def asked(self, text: str, rows: Sequence[Row], to: int) -> Answer:
        """What `advance` says."""
        table = HEADER + "".join(f"{it.label},{it.day},{it.value}\n" for it in rows)
        files = {"book": text.encode(), "fix": table.encode()}
        return self.engine.answer(["advance", "book", "fix", f"--to={to}"], files)

    def advanced(self, text: bytes, rows: Sequence[Row], to: int) -> str:
        told = self.asked(text.decode("utf-8", "replace"), rows, to).expected().decode()
        return read_as(advanced_of, told).portfolio


def left_of(portfolio: str) -> str:
    """The term of the one contract of a canonical text."""
    found = LEFT.search(portfolio)
    if not found:
        raise Stop(Status.DESK, "what is left has another form than that of this release")
    return found[1]


def lines_of(
    diaries: Sequence[Diary], calendar: Calendar, start: int, has_idle: bool
) -> Iterator[str]:
    """The lines of all contracts, day by day. Days on which only time went by are left out, if
    they are not asked for.
    """
    for it in diaries:
        yield f"{calendar.text(start)} {it.deal.name} is {it.left}"
    for steps in zip(*(it.steps for it in diaries)):
        for it, step in zip(diaries, steps):
            if has_idle or not step.is_idle:
                yield from lines_of_step(it.deal.name, step, calendar)


def lines_of_step(name: str, step: Step, calendar: Calendar) -> Iterator[str]:
    day = calendar.text(step.day)
    for row in step.read:
        of = "" if row.day == step.day else f" of {calendar.text(row.day)}"
        yield f"{day} {name} reads {row.label} {row.value}{of}"
    for flow in step.paid:
        yield f"{day} {name} pays {flow.payer} {flow.receiver} {flow.asset} {flow.amount:f}"
    yield f"{calendar.text(step.day + 1)} {name} is {step.left}"
