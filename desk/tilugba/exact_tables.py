"""Tables out of rows and DataFrames, exactly: fixings, curves and sets of scenarios as the bytes
that the program reads.

A table is long, with the columns of its header, or wide, with `day` (of scenarios also `scenario`)
and a column for each label. In a wide table None and NaN mean that nothing is fixed. What is not
exact is refused, with its row and its column: floats are rounded only by a mode and decimals that
the caller names for the label.
"""

from __future__ import annotations

import datetime
import os
from collections.abc import Iterable, Iterator, Mapping, Sequence
from dataclasses import dataclass
from decimal import (
    ROUND_CEILING, ROUND_FLOOR, ROUND_HALF_EVEN, ROUND_HALF_UP, Decimal, localcontext
)
from numbers import Integral

from . import tables

MODES = {
    "half_even": ROUND_HALF_EVEN,
    "half_away": ROUND_HALF_UP,
    "floor": ROUND_FLOOR,
    "ceil": ROUND_CEILING,
}
# As many digits as a float has before its point, and more than a value has behind it.
DIGITS = 400
# To more decimals nothing is rounded: no label has as many.
MOST_DECIMALS = 90
# Of pandas, which need not be there: what stands for nothing.
NOTHING = {"NAType", "NaTType"}


class TableError(ValueError):
    """A table is not exact, or not whole: `row`, from 1 without the header, and `column`, if it is
    one cell that is wrong.
    """

    def __init__(self, message: str, row: int | None = None, column: str | None = None) -> None:
        super().__init__(message if row is None else f"row {row}, column {column}: {message}")
        self.message, self.row, self.column = message, row, column

    def __reduce__(self) -> tuple[type, tuple[object, ...]]:
        return TableError, (self.message, self.row, self.column)


@dataclass(frozen=True)
class Kind:
    """A kind of table: its header, the columns that a wide one keeps, and which of its columns
    holds the values.
    """

    name: str
    header: tuple[str, ...]
    kept: tuple[str, ...] = ()
    value: str = "value"


FIXINGS = Kind("fixings", tables.FIXINGS, ("day",))
SCENARIOS = Kind("scenarios", tables.SCENARIOS, ("scenario", "day"))
CURVE = Kind("curve", tables.CURVE, value="factor")


@dataclass(frozen=True)
class Rounding:
    """How floats are rounded: by a mode, to the decimals of their label; `factor` is the label of a
    curve.
    """

    mode: str
    decimals: Mapping[str, int]

    def __post_init__(self) -> None:
        if self.mode not in MODES:
            raise TableError(f"{self.mode} is no mode of rounding: it is one of {', '.join(MODES)}")
        for label, decimals in self.decimals.items():
            if not isinstance(decimals, Integral) or not abs(decimals) <= MOST_DECIMALS:
                raise TableError(f"{decimals!r} is no number of decimals for {label}")

    def rounded(self, value: float, label: str) -> Decimal | None:
        """The value of the float itself, which may not be the decimal that was typed, rounded once;
        nothing without decimals for it.
        """
        if label not in self.decimals:
            return None
        with localcontext() as context:
            context.prec = DIGITS
            return Decimal(value).quantize(
                Decimal(1).scaleb(-self.decimals[label]), rounding=MODES[self.mode]
            )


def rounding_of(mode: str | None, decimals: Mapping[str, int] | None) -> Rounding | None:
    if (mode is None) != (decimals is None):
        raise TableError("floats are rounded by a mode and by decimals: name both")
    return None if mode is None or decimals is None else Rounding(mode, decimals)


def plain(cell: object) -> object:
    """A scalar of numpy as that of Python; nothing for None, NaN and what stands for them."""
    if type(cell).__module__ == "numpy" and hasattr(cell, "item"):
        cell = cell.item()
    is_nothing = (
        cell is None
        or type(cell).__name__ in NOTHING
        or (isinstance(cell, float) and cell != cell)
        or (isinstance(cell, Decimal) and cell.is_nan())
    )
    return None if is_nothing else cell


@dataclass(frozen=True)
class Cell:
    """A cell with its place, for what is wrong with it."""

    held: object
    row: int
    column: str

    def wrong(self, why: str) -> TableError:
        return TableError(why, self.row, self.column)

    def name(self) -> str:
        if not isinstance(self.held, str):
            raise self.wrong(f"a name is a text, and not {self.held!r}")
        return self.held

    def whole(self) -> str:
        """A whole number as it is written, if it has no more digits than Python writes."""
        try:
            return str(self.held)
        except ValueError as error:
            raise self.wrong("a number has too many digits") from error

    def day(self) -> str:
        held = self.held
        if isinstance(held, datetime.datetime):
            if held.time() != datetime.time() or held.tzinfo is not None:
                raise self.wrong(f"a day has no time and no time zone, as {held} has")
            held = held.date()
        if isinstance(held, datetime.date):
            return held.isoformat()
        if isinstance(held, str) or (isinstance(held, Integral) and not isinstance(held, bool)):
            return self.whole()
        raise self.wrong(f"a day is a date, a whole number or a text, and not {held!r}")

    def value(self, label: str, rounding: Rounding | None) -> str:
        held = self.held
        if isinstance(held, bool):
            return "true" if held else "false"
        if isinstance(held, (str, Integral)):
            return self.whole()
        if isinstance(held, Decimal) and held.is_finite():
            return format(held, "f")
        if isinstance(held, float) and rounding and held not in (float("inf"), float("-inf")):
            rounded = rounding.rounded(held, label)
            if rounded is not None:
                return format(rounded, "f")
            raise self.wrong(
                f"there are no decimals for {label}, to which {held!r} could be rounded"
            )
        if isinstance(held, float) and not rounding:
            raise self.wrong(
                f"{held!r} is a float and not exact: write Decimal('{held}'), or name a mode and "
                f"decimals for {label}"
            )
        raise self.wrong(
            f"a value is a Decimal, a whole number, a bool or a text, and not {held!r}"
        )


Columns = tuple[list[str], Iterable[Sequence[object]]]


def columns_of(kind: Kind, table: object) -> Columns:
    """The columns of a table, and its rows."""
    if hasattr(table, "itertuples") and hasattr(table, "columns"):
        return columns_of_frame(kind, table)
    rows = list(table) if isinstance(table, Iterable) else None
    if rows is None or isinstance(table, Mapping):
        raise TableError(
            f"a table of {kind.name} is a text, a list of rows or a DataFrame, and not "
            f"{type(table).__name__}"
        )
    if rows and isinstance(rows[0], Mapping):
        names = list(dict.fromkeys(name for row in rows for name in row))
        return names, [[row.get(name) for name in names] for row in rows]
    if rows and hasattr(rows[0], "_fields"):
        return list(rows[0]._fields), rows
    return list(kind.header), rows


def columns_of_frame(kind: Kind, frame: object) -> Columns:
    """A DataFrame; days, or scenarios and days, may be its index."""
    names = [name for name in frame.index.names if name is not None]
    if names:
        frame = frame.reset_index()
    elif (
        "day" in kind.kept
        and "day" not in frame.columns
        and type(frame.index).__name__ != "RangeIndex"
    ):
        frame = frame.rename_axis("day").reset_index()
    return [str(name) for name in frame.columns], frame.itertuples(index=False, name=None)


def lines(kind: Kind, columns: Columns, rounding: Rounding | None) -> Iterator[list[str]]:
    """The records of the table, with the header."""
    names, rows = columns
    is_long = set(kind.header) <= set(names)
    # A label that is called as a column of a long table is written in a long one.
    is_wide = bool(kind.kept) and set(kind.header) & set(names) == set(kind.kept)
    if len(set(names)) != len(names) or not (is_long or is_wide):
        wide = f", or {' and '.join(kind.kept)} with a column for each label" if kind.kept else ""
        raise TableError(
            f"a table of {kind.name} has the columns {', '.join(kind.header)}{wide}, and not "
            f"{', '.join(names)}"
        )
    yield list(kind.header)
    for number, row in enumerate(rows, 1):
        if not isinstance(row, Iterable) or isinstance(row, (str, bytes)):
            raise TableError(f"row {number} is no row of cells: {row!r}")
        held = list(row)
        if len(held) != len(names):
            raise TableError(f"row {number} has {len(held)} cells, and not {len(names)}")
        cells = {name: Cell(plain(cell), number, name) for name, cell in zip(names, held)}
        yield from long_record(kind, cells, rounding) if is_long else wide_records(
            kind, cells, rounding
        )


def long_record(kind: Kind, cells: Mapping[str, Cell], rounding: Rounding | None) -> Iterator[
    list[str]
]:
    written = []
    for name in kind.header:
        cell = cells[name]
        if cell.held is None:
            raise cell.wrong("there is nothing")
        if name == kind.value:
            written.append(
                cell.value(cells["label"].name() if "label" in cells else name, rounding)
            )
        else:
            written.append(cell.name() if name in ("label", "scenario") else cell.day())
    yield written


def wide_records(kind: Kind, cells: Mapping[str, Cell], rounding: Rounding | None) -> Iterator[
    list[str]
]:
    """A record for each label that is fixed on the day of the row."""
    if "day" in cells and cells["day"].held is None:
        raise cells["day"].wrong("there is nothing")
    day = cells["day"].day()
    scenario = [cells["scenario"].name()] if "scenario" in kind.kept else []
    for label, cell in cells.items():
        if label not in kind.kept and cell.held is not None:
            yield [*scenario, label, day, cell.value(label, rounding)]


def text_of(text: bytes | str | os.PathLike[str]) -> bytes:
    """A text itself, or the file that a path names."""
    if isinstance(text, os.PathLike):
        with open(text, "rb") as file:
            return file.read()
    if isinstance(text, str):
        return text.encode("utf-8", "surrogateescape")
    if not isinstance(text, (bytes, bytearray, memoryview)):
        raise TypeError(f"a text is a str, bytes or a path, and not {type(text).__name__}")
    return bytes(text)


def table_of(kind: Kind, table: object, rounding: Rounding | None = None) -> bytes:
    """A table as the program reads it: a text as it is, and rows and DataFrames exactly."""
    if isinstance(table, (bytes, bytearray, memoryview, str, os.PathLike)):
        return text_of(table)
    return "".join(tables.lines_of(lines(kind, columns_of(kind, table), rounding))).encode()
