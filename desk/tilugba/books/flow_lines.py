"""Flow lines in their order, and the difference between two lists of them."""

from __future__ import annotations

from collections import Counter
from collections.abc import Callable, Iterable
from dataclasses import dataclass

from ..days import Calendar, day_of
from ..program import Status, Stop

GONE, NEW = "gone", "new"


def place_of(calendar: Calendar) -> Callable[[str], tuple[int, str]]:
    """Where a flow line stands among others: its day, and then its name."""

    def place(line: str) -> tuple[int, str]:
        name, written = line.split(",")[:2]
        day = day_of(written)
        number = calendar.number(day) if day else None
        if number is None:
            raise Stop(Status.DESK, f"this is no flow line: {line}")
        return number, name

    return place


def by_day(lines: Iterable[str], calendar: Calendar) -> list[str]:
    """Flow lines by day, and then by name. Lines of one name and day keep their order."""
    return sorted(lines, key=place_of(calendar))


@dataclass(frozen=True)
class Differences:
    """Lines that one list has and the other has not, each as often as it is more there."""

    gone: tuple[str, ...]
    new: tuple[str, ...]

    def told(self, calendar: Calendar) -> list[str]:
        """The lines behind `gone` and `new`, by day and then by name; of one day and name those
        that are gone come first.
        """
        place = place_of(calendar)
        found = [(GONE, line) for line in self.gone] + [(NEW, line) for line in self.new]
        return [f"{kind},{line}" for kind, line in sorted(found, key=lambda it: place(it[1]))]


def differences(before: Iterable[str], after: Iterable[str]) -> Differences:
    """What is gone and what is new from one list to another."""
    one, two = Counter(before), Counter(after)
    return Differences(tuple((one - two).elements()), tuple((two - one).elements()))
