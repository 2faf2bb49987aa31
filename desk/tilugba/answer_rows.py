"""The lines of answers as rows. Each row is written again as its line, so the text of an answer is
that of its rows.
"""

from __future__ import annotations

import datetime
from collections.abc import Callable, Iterable
from decimal import Decimal
from typing import TYPE_CHECKING, NamedTuple, TypeVar

from .program import Acceptance, Status, Stop, verdict_of

if TYPE_CHECKING:
    import pandas

# Of a portfolio with an origin a day is a date, and otherwise a number.
Day = int | datetime.date


def day_of(text: str) -> Day:
    return datetime.date.fromisoformat(text) if "-" in text[1:] else int(text)


class Flow(NamedTuple):
    """A payment. The name is that of the contract, or `*` where payments were added up."""

    name: str
    day: Day
    payer: str
    receiver: str
    asset: str
    amount: Decimal

    @property
    def line(self) -> str:
        return f"{self.name},{self.day},{self.payer},{self.receiver},{self.asset},{self.amount:f}"


class Position(NamedTuple):
    """What a party is paid on a day in an asset, less what it pays."""

    day: Day
    party: str
    asset: str
    amount: Decimal

    @property
    def line(self) -> str:
        return f"{self.day},{self.party},{self.asset},{self.amount:f}"


class Verdict(NamedTuple):
    """What `check` says: an accepted contract has `start` (None: it never pays), `scale`, `total`,
    `horizon`; others `rule`, `node`.
    """

    name: str
    accepted: bool
    start: int | None = None
    scale: int | None = None
    total: Decimal | None = None
    horizon: int | None = None
    rule: str | None = None
    node: int | None = None

    @property
    def line(self) -> str:
        if not self.accepted:
            return f"{self.name} refused {self.rule} node {self.node}"
        start = "always" if self.start is None else self.start
        return (
            f"{self.name} accepted start {start} scale {self.scale} total {self.total:f} horizon "
            f"{self.horizon}"
        )


class Named(NamedTuple):
    """The value in a scenario."""

    name: str
    value: Decimal

    @property
    def line(self) -> str:
        return f"{self.name},{self.value:f}"


class Sum(NamedTuple):
    """What one party pays another in an asset over all contracts of the sample."""

    payer: str
    receiver: str
    asset: str
    amount: Decimal

    @property
    def line(self) -> str:
        return f"{self.payer},{self.receiver},{self.asset},{self.amount:f}"


Row = TypeVar("Row", Flow, Position, Verdict, Named, Sum)


class Rows(list[Row]):
    """Rows of one kind."""

    def __init__(self, kind: type[Row], rows: Iterable[Row] = ()) -> None:
        super().__init__(rows)
        self.kind = kind

    def __reduce__(self) -> tuple[type, tuple[type, list[Row]]]:
        return Rows, (self.kind, list(self))

    @property
    def text(self) -> str:
        """The lines of the answer."""
        return "".join(f"{row.line}\n" for row in self)

    def frame(self) -> pandas.DataFrame:
        """A DataFrame of objects: amounts are `Decimal` and dates `datetime.date`, so nothing is
        rounded and no date is too late.
        """
        try:
            import pandas
        except ImportError as error:
            raise ImportError(
                "a frame needs pandas, which is not installed: the rows themselves are a list of "
                "tuples"
            ) from error
        return pandas.DataFrame.from_records(list(self), columns=list(self.kind._fields)).astype(
            object
        )


class Advanced(NamedTuple):
    """What was due before the day, and the portfolio that is left."""

    due: Rows[Flow]
    portfolio: str

    @property
    def text(self) -> str:
        """The whole answer, in which what was due stands as comments."""
        return "".join(f"# {row.line}\n" for row in self.due) + self.portfolio


class Scenarios(NamedTuple):
    """The value in each scenario in the order of the table, and their sum, their rounded mean, the
    least and the greatest.
    """

    values: Rows[Named]
    total: Decimal
    mean: Decimal
    least: Named
    greatest: Named

    @property
    def text(self) -> str:
        sums = f"total,{self.total:f}\nmean,{self.mean:f}\n"
        return f"{self.values.text}{sums}least,{self.least.line}\ngreatest,{self.greatest.line}\n"


class Sample(NamedTuple):
    """The numbers of contracts and of payments, and what is paid over all of them."""

    contracts: int
    lines: int
    sums: Rows[Sum]

    @property
    def text(self) -> str:
        return f"contracts {self.contracts}\nlines {self.lines}\n{self.sums.text}"


def flow_of(line: str) -> Flow:
    name, day, payer, receiver, asset, amount = line.split(",")
    return Flow(name, day_of(day), payer, receiver, asset, Decimal(amount))


def position_of(line: str) -> Position:
    day, party, asset, amount = line.split(",")
    return Position(day_of(day), party, asset, Decimal(amount))


def verdict_row(line: str) -> Verdict:
    said = verdict_of(line)
    if not isinstance(said, Acceptance):
        return Verdict(said.name, False, rule=said.rule, node=said.node)
    start = None if said.start == "always" else int(said.start)
    return Verdict(said.name, True, start, said.scale, Decimal(said.total), said.horizon)


def named_of(line: str) -> Named:
    name, value = line.split(",")
    return Named(name, Decimal(value))


def sum_of(line: str) -> Sum:
    payer, receiver, asset, amount = line.split(",")
    return Sum(payer, receiver, asset, Decimal(amount))


def rows(kind: type[Row], read: Callable[[str], Row], text: str) -> Rows[Row]:
    return Rows(kind, map(read, text.splitlines()))


def advanced_of(text: str) -> Advanced:
    lines = text.splitlines(keepends=True)
    count = next((at for at, line in enumerate(lines) if not line.startswith("# ")), len(lines))
    due = Rows(Flow, (flow_of(line[2:].rstrip("\n")) for line in lines[:count]))
    return Advanced(due, "".join(lines[count:]))


def scenarios_of(text: str) -> Scenarios:
    """A scenario may have any name, so the last four lines are told by their place."""
    lines = text.splitlines()
    total, mean, least, greatest = (line.split(",", 1)[1] for line in lines[-4:])
    return Scenarios(
        Rows(Named, map(named_of, lines[:-4])),
        Decimal(total),
        Decimal(mean),
        named_of(least),
        named_of(greatest),
    )


def sample_of(text: str) -> Sample:
    contracts, lines, *sums = text.splitlines()
    return Sample(int(contracts.split()[1]), int(lines.split()[1]), Rows(Sum, map(sum_of, sums)))


def read_as(read: Callable[[str], object], text: str) -> object:
    """What an answer says; what has another form is not of this program."""
    try:
        return read(text)
    except (ValueError, ArithmeticError, IndexError, Stop) as error:
        raise Stop(Status.DESK, f"the answer is none of this release: {text[:80]!r}") from error
