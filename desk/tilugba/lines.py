"""What the program prints, read again: payments, positions, the values of scenarios, one value."""

from __future__ import annotations

import re
from collections.abc import Iterator
from dataclasses import dataclass
from decimal import Decimal
from pathlib import Path

from .days import Day, day_of
from .program import Status, Stop
from .tables import read_file

NAME = "[A-Za-z_][A-Za-z0-9_]*"
NUMBER = "-?[0-9]+(?:[.][0-9]+)?"
# No value that the program prints is nearly as long.
POINTED = "-?[0-9]{1,300}[.][0-9]{1,300}"
PAYMENT = re.compile(rf"(?:{NAME}|\*),([0-9-]+),({NAME}),({NAME}),({NAME}),([0-9]+(?:[.][0-9]+)?)")
POSITION = re.compile(rf"([0-9-]+),({NAME}),({NAME}),({NUMBER})")
SCENARIO = re.compile(rf"({NAME}),({POINTED})")
# What stands below the lines of the scenarios.
ENDS = (
    re.compile(rf"total,({POINTED})"),
    re.compile(rf"mean,({POINTED})"),
    re.compile(rf"least,({NAME}),({POINTED})"),
    re.compile(rf"greatest,({NAME}),({POINTED})"),
)
VALUE = re.compile(POINTED)


def text_of(path: str | Path) -> str:
    """The text of a file of lines."""
    try:
        return read_file(path).decode("utf-8")
    except UnicodeDecodeError as error:
        raise Stop(Status.ROW, f"{path}: it is not UTF-8") from error


@dataclass(frozen=True, slots=True)
class Payment:
    """A line of `flows` or `settle`."""

    day: Day
    payer: str
    receiver: str
    asset: str
    amount: Decimal


def payments_in(path: str | Path) -> Iterator[Payment]:
    """The payments of a file, whose days are dates."""
    for number, line in enumerate(text_of(path).splitlines(), 1):
        found = PAYMENT.fullmatch(line)
        day = day_of(found[1]) if found else None
        if found is None or day is None or not day.is_date:
            raise Stop(Status.ROW, f"{path}: line {number} is no flow line with a date")
        yield Payment(day, found[2], found[3], found[4], Decimal(found[5]))


@dataclass(frozen=True, slots=True)
class Position:
    """A line of `positions`."""

    day: Day
    party: str
    asset: str
    amount: Decimal


def positions_in(path: str | Path) -> Iterator[Position]:
    """The positions of a file, whose last line ends."""
    text = text_of(path)
    if text and not text.endswith("\n"):
        raise Stop(Status.ROW, f"{path}: the last line does not end")
    for number, line in enumerate(text.splitlines(), 1):
        found = POSITION.fullmatch(line)
        day = day_of(found[1]) if found else None
        if found is None or day is None:
            raise Stop(Status.ROW, f"{path}: line {number} is no position")
        yield Position(day, found[2], found[3], Decimal(found[4]))


@dataclass(frozen=True, slots=True)
class Value:
    """The value of a scenario of a name."""

    name: str
    value: Decimal


@dataclass(frozen=True)
class Values:
    """What `scenarios` prints: the value of each scenario, with these lines as they are, their sum
    and mean, the least and the greatest.
    """

    text: str
    each: list[Value]
    total: Decimal
    mean: Decimal
    least: Value
    greatest: Value

    def numbers(self) -> Iterator[Decimal]:
        """All numbers that are printed."""
        yield from (it.value for it in self.each)
        yield from (self.total, self.mean, self.least.value, self.greatest.value)


def values_in(path: str | Path) -> Values:
    """The values of a file that has nothing but what `scenarios` prints."""
    lines = text_of(path).split("\n")
    each = [SCENARIO.fullmatch(line) for line in lines[:-5]]
    ends = [end.fullmatch(line) for end, line in zip(ENDS, lines[-5:])]
    if not each or lines[-1] or not all(each) or not all(ends):
        raise Stop(Status.ROW, f"{path}: it is not what scenarios prints")
    values = [Value(it[1], Decimal(it[2])) for it in each if it]
    total, mean = (Decimal(it[1]) for it in ends[:2] if it)
    least, greatest = (Value(it[1], Decimal(it[2])) for it in ends[2:] if it)
    return Values("".join(f"{line}\n" for line in lines[:-5]), values, total, mean, least, greatest)
