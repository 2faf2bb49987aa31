"""The commands of the program as functions: texts and tables go in, rows with exact amounts come
back.

    flows = tilugba.flows(portfolio, fixings)
    flows[0].amount

`bytes` and `str` are a text itself, a path is its file. A table is a text, rows or a DataFrame
(`exact_tables`). What stops a call is raised (`errors`). Any number of threads may call at once.
"""

from __future__ import annotations

import datetime
import multiprocessing
import os
from collections.abc import Callable, Mapping, Sequence
from concurrent.futures import ProcessPoolExecutor
from decimal import Decimal
from pathlib import Path
from typing import Literal, TypeVar

from . import answer_rows, exact_tables, program
from .answer_rows import Advanced, Flow, Position, Row, Rows, Sample, Scenarios, Verdict
from .children import Limited
from .engines import ByProgram, Engine, Found, Library
from .errors import NoAnswer, ReadError, error_of
from .exact_tables import CURVE, FIXINGS, SCENARIOS, Kind, table_of, text_of
from .program import Answer, Status, Stop

Text = bytes | str | os.PathLike[str]
# A text, rows or a DataFrame.
Table = object
Day = int | str | datetime.date
Mode = Literal["half_even", "half_away", "floor", "ceil"]
Read = TypeVar("Read")


def word_of(value: Day) -> str:
    """A day as a word: a whole number, a date or a text."""
    if isinstance(value, bool) or not isinstance(value, (int, str, datetime.date)):
        raise TypeError(f"a day is a date, a whole number or a text, and not {value!r}")
    return value.date().isoformat() if isinstance(value, datetime.datetime) else str(value)


def days_of(settings: Mapping[str, int] | None) -> list[str]:
    return [f"{name}={days}" for name, days in (settings or {}).items()]


class Calls:
    """The commands over what answers them."""

    def __init__(self, engine: Engine) -> None:
        self.engine = engine

    def run(
        self, words: Sequence[str | bytes], files: Mapping[str | bytes, Text] | None = None
    ) -> Answer:
        """The status and the bytes of a command, as the program has them. A file is named by the
        word for it; no other is opened.
        """
        told = [os.fsdecode(word) for word in words]
        if any("\0" in word for word in told):
            raise ValueError("a word of a command line has no byte 0")
        return self.engine.answer(
            told, {os.fsdecode(name): text_of(text) for name, text in (files or {}).items()}
        )

    def _text(self, words: Sequence[str], texts: Sequence[bytes], also: int = Status.DONE) -> str:
        """What a command prints over texts that have the numbers of their places as names."""
        names = [str(place) for place in range(1, len(texts) + 1)]
        answer = self.engine.answer([words[0], *names, *words[1:]], dict(zip(names, texts)))
        if answer.status not in (Status.DONE, also) and answer.fault:
            raise error_of(answer.fault, texts[0] if texts else b"")
        return answer.text

    def _rows(self, kind: type[Row], read: Callable[[str], Row], text: str) -> Rows[Row]:
        return self._read(lambda it: answer_rows.rows(kind, read, it), text)

    def _read(self, read: Callable[[str], Read], text: str) -> Read:
        try:
            return answer_rows.read_as(read, text)
        except Stop as stop:
            raise NoAnswer(stop.message) from stop

    def check(self, portfolio: Text) -> Rows[Verdict]:
        """A verdict on each contract. A refused contract is no error here."""
        return self._rows(
            Verdict,
            answer_rows.verdict_row,
            self._text(["check"], [opened(portfolio)], Status.REFUSED),
        )

    def flows(
        self,
        portfolio: Text,
        fixings: Table = None,
        *,
        until: Day | None = None,
        contract: str | None = None,
        net: bool = False,
    ) -> Rows[Flow]:
        """The payments of all contracts up to a day, of one contract, or netted."""
        words = [
            "flows",
            *option("until", until),
            *option("contract", contract),
            *(["--net"] if net else []),
        ]
        return self._rows(Flow, answer_rows.flow_of, self._text(words, book(portfolio, fixings)))

    def positions(
        self, portfolio: Text, fixings: Table = None, *, until: Day | None = None
    ) -> Rows[Position]:
        """What each party is paid less what it pays, by day and asset, over all contracts."""
        text = self._text(["positions", *option("until", until)], book(portfolio, fixings))
        return self._rows(Position, answer_rows.position_of, text)

    def settle(self, portfolio: Text, fixings: Table = None, *, until: Day | None = None) -> Rows[
        Flow
    ]:
        """Payments that settle these positions."""
        text = self._text(["settle", *option("until", until)], book(portfolio, fixings))
        return self._rows(Flow, answer_rows.flow_of, text)

    def advance(self, portfolio: Text, fixings: Table, *, to: Day) -> Advanced:
        """What is due before a day, and the portfolio that is left on it."""
        text = self._text(["advance", *option("to", to)], book(portfolio, fixings))
        return self._read(answer_rows.advanced_of, text)

    def novate(
        self, portfolio: Text, fixings: Table, *, to: Day, contract: str, old: str, new: str
    ) -> Advanced:
        """As `advance`, with a new party in the place of the old one in one contract."""
        words = [
            "novate",
            *option("to", to),
            *option("contract", contract),
            *option("old", old),
            *option("new", new),
        ]
        return self._read(answer_rows.advanced_of, self._text(words, book(portfolio, fixings)))

    def payoff(self, portfolio: Text, *, contract: str, plain: bool = False) -> str:
        """The code of a contract, for `value` and `scenarios`. With `plain` past payments count."""
        words = ["payoff", *option("contract", contract), *(["--plain"] if plain else [])]
        return self._text(words, [opened(portfolio)])

    def value(
        self,
        code: Text,
        fixings: Table,
        curve: Table,
        settings: Mapping[str, int] | None = None,
        *,
        at: Day,
        payer: str,
        receiver: str,
        asset: str,
    ) -> Decimal:
        """What the payer is to pay the receiver in the asset from a day on, discounted. Settings
        have the days of templates.
        """
        words = ["value", *asked(at, payer, receiver, asset), *days_of(settings)]
        text = self._text(words, [opened(code), table(FIXINGS, fixings, 2), table(CURVE, curve, 3)])
        return self._read(lambda it: Decimal(it.removesuffix("\n")), text)

    def scenarios(
        self,
        code: Text,
        scenarios: Table,
        curve: Table,
        settings: Mapping[str, int] | None = None,
        *,
        at: Day,
        payer: str,
        receiver: str,
        asset: str,
        mean: Mode,
    ) -> Scenarios:
        """That value in each scenario, their exact sum, their mean, rounded by the mode, and the
        least and the greatest.
        """
        words = [
            "scenarios",
            *asked(at, payer, receiver, asset),
            *option("mean", mean),
            *days_of(settings),
        ]
        text = self._text(
            words, [opened(code), table(SCENARIOS, scenarios, 2), table(CURVE, curve, 3)]
        )
        return self._read(answer_rows.scenarios_of, text)

    def migrate(self, portfolio: Text) -> str:
        """The portfolio in version 2, with all else equal."""
        return self._text(["migrate"], [opened(portfolio)])

    def expand(self, plans: Text) -> str:
        """The portfolio of a schedule file."""
        return self._text(["expand"], [opened(plans)])

    def sample(self, number: int) -> Sample:
        """A summary of so many built-in contracts."""
        return self._read(answer_rows.sample_of, self._text(["sample", str(number)], []))


def opened(text: Text, place: int = 1) -> bytes:
    """A text, or the one in the file that a path names."""
    try:
        return text_of(text)
    except OSError as error:
        raise ReadError(f"fault read {place}", place=place, file=error.filename) from error


def table(kind: Kind, given: Table, place: int) -> bytes:
    return opened(given, place) if isinstance(given, os.PathLike) else table_of(kind, given)


def book(portfolio: Text, fixings: Table) -> list[bytes]:
    return [opened(portfolio), *([] if fixings is None else [table(FIXINGS, fixings, 2)])]


def option(name: str, value: Day | None) -> list[str]:
    """An option is one word with its value, so that no value is taken for an option."""
    return [] if value is None else [f"--{name}={word_of(value)}"]


def asked(at: Day, payer: str, receiver: str, asset: str) -> list[str]:
    return [
        *option("at", at), *option("from", payer), *option("to", receiver), *option("asset", asset)
    ]


# ---- Other engines, and tables


def over_library(path: str | os.PathLike[str]) -> Calls:
    """The commands over this library."""
    return Calls(Library(path))


def over_program(path: str | os.PathLike[str]) -> Calls:
    """The commands over this program."""
    return Calls(ByProgram(program.Program(Path(path).absolute())))


def limited(*, seconds: float | None = None, memory: int | None = None) -> Calls:
    """The commands in a child for each call, which is ended after so many seconds and gets so many
    bytes: for texts of strangers.
    """
    return Calls(Limited(seconds, memory))


def pool(workers: int | None = None) -> ProcessPoolExecutor:
    """A pool of processes that begin anew (`spawn`): a library is not to be called in the forked
    child of a process with threads.
    """
    return ProcessPoolExecutor(workers, mp_context=multiprocessing.get_context("spawn"))


def fixings_table(
    given: Table, *, mode: Mode | None = None, decimals: Mapping[str, int] | None = None
) -> bytes:
    """A table of fixings out of rows or a DataFrame. Floats are rounded by the mode to the decimals
    of their label.
    """
    return table_of(FIXINGS, given, exact_tables.rounding_of(mode, decimals))


def scenario_table(
    given: Table, *, mode: Mode | None = None, decimals: Mapping[str, int] | None = None
) -> bytes:
    """A table of scenarios out of rows or a DataFrame, as `fixings_table`."""
    return table_of(SCENARIOS, given, exact_tables.rounding_of(mode, decimals))


def curve_table(
    given: Table, *, mode: Mode | None = None, decimals: Mapping[str, int] | None = None
) -> bytes:
    """A curve out of rows or a DataFrame, as `fixings_table`: the decimals are those of `factor`.
    """
    return table_of(CURVE, given, exact_tables.rounding_of(mode, decimals))


# ---- The commands over what is found

found = Calls(Found())
run = found.run
check = found.check
flows = found.flows
positions = found.positions
settle = found.settle
advance = found.advance
novate = found.novate
payoff = found.payoff
value = found.value
scenarios = found.scenarios
migrate = found.migrate
expand = found.expand
sample = found.sample
