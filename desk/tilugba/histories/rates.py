"""Fixings as they were known on a day, and curves. Of each only the rows that a contract can
read are handed on.
"""

from __future__ import annotations

from bisect import bisect_right
from collections.abc import Iterator, Mapping
from dataclasses import dataclass
from pathlib import Path

from ..days import Calendar, day_of
from ..files import read_file
from ..program import Status, Stop
from ..tables import FIXINGS, records
from .deals import Stretches

HEADER = ",".join(FIXINGS) + "\n"


@dataclass(frozen=True)
class Fixed:
    """The values of a label with their days, in order."""

    days: list[int]
    values: list[str]

    def known(self, on: int, to: int, stretch: tuple[int, int]) -> Iterator[tuple[int, str]]:
        """The values of a stretch of days as they were known on a day.

        Rows behind that day count nothing, and a day without a row has the value of the last row
        before it, up to the day `to`.
        """
        count = bisect_right(self.days, on)
        if count == 0:
            return
        first, last = max(stretch[0], self.days[0]), min(stretch[1], max(self.days[count - 1], to))
        at = bisect_right(self.days, first, 0, count) - 1
        for day in range(first, last + 1):
            if at + 1 < count and self.days[at + 1] == day:
                at += 1
            yield day, self.values[at]


class Rates:
    """A table of fixings that the program has taken."""

    def __init__(self, data: bytes, calendar: Calendar) -> None:
        found: dict[str, dict[int, str]] = {}
        for record in list(records(data))[1:]:
            label, word, value = record.texts
            day = day_of(word)
            number = None if day is None else calendar.number(day)
            if number is None:
                raise Stop(Status.ROW, f"record {record.number} has no day: {word}")
            found.setdefault(label, {}).setdefault(number, value)
        self.labels = {
            label: Fixed(*map(list, zip(*sorted(rows.items())))) for label, rows in found.items()
        }

    def table(self, reads: Mapping[str, Stretches], on: int, to: int) -> bytes:
        """The rows of these reads as they were known on a day, with last values up to another
        one.
        """
        lines = [HEADER]
        for label, stretches in reads.items():
            fixed = self.labels.get(label)
            for stretch in stretches if fixed else ():
                lines += [f"{label},{day},{value}\n" for day, value in fixed.known(on, to, stretch)]
        return "".join(lines).encode()

    def whole(self, on: int, to: int) -> bytes:
        """All rows, in the same way."""
        return self.table(
            {
                label: ((fixed.days[0], max(fixed.days[-1], to)),)
                for label, fixed in self.labels.items()
            },
            on,
            to,
        )


class Curve:
    """A table of factors that the program has taken."""

    def __init__(self, data: bytes) -> None:
        self.data = data
        rows = [(int(it.texts[0]), it.data) for it in list(records(data))[1:]]
        self.offsets = [offset for offset, _ in rows]
        self.rows = [row if row.endswith((b"\n", b"\r")) else row + b"\n" for _, row in rows]
        self.cut: dict[int, bytes] = {}

    def until(self, offset: int) -> bytes:
        """The rows that count for payments up to an offset, of which the first one is always
        there.
        """
        count = max(bisect_right(self.offsets, offset), 1)
        if count not in self.cut:
            self.cut[count] = b"offset,factor\n" + b"".join(self.rows[:count])
        return self.cut[count]


class Curves:
    """One curve for all days, or a folder that has one for each, `DAY.csv`."""

    def __init__(self, path: Path, calendar: Calendar) -> None:
        self.path, self.calendar = path, calendar
        self.is_folder = path.is_dir()
        # Each file is read once, so that one may be a pipe, and a receipt has what was read.
        self.read: dict[Path, bytes] = {} if self.is_folder else {path: read_file(path)}

    def place(self, day: int) -> Path:
        """The file of the curve of a day."""
        return self.path / f"{self.calendar.text(day)}.csv" if self.is_folder else self.path

    def data(self, day: int) -> bytes:
        path = self.place(day)
        if path not in self.read:
            self.read[path] = read_file(path)
        return self.read[path]
