"""From numbers to places on a picture."""

from __future__ import annotations

import math
from collections.abc import Iterable
from dataclasses import dataclass

STEPS = (1.0, 2.0, 2.5, 5.0, 10.0)


@dataclass(frozen=True)
class Scale:
    """The numbers from `low` to `high` on the places from `first` to `last`."""

    low: float
    high: float
    first: float
    last: float

    def at(self, number: float) -> float:
        share = (number - self.low) / (self.high - self.low)
        return self.first + share * (self.last - self.first)


def round_step(span: float, count: int) -> float:
    """The least round number of which at most so many fill a span."""
    least = span / count
    unit = 10.0 ** math.floor(math.log10(least))
    return next(step * unit for step in STEPS if step * unit >= least * (1 - 1e-9))


def ticks(numbers: Iterable[float], count: int = 5) -> list[float]:
    """Round numbers from below the least to above the greatest, with 0 among them."""
    known = [it for it in numbers if math.isfinite(it)]
    low, high = min([0.0, *known]), max([0.0, *known])
    if low == high:
        high = 1.0
    step = round_step(high - low, count)
    return [number * step for number in range(math.floor(low / step), math.ceil(high / step) + 1)]


def short(number: float) -> str:
    """A number at the side of a picture: without an exponent, and with marks between thousands."""
    if abs(number) >= 10 or number == 0:
        return f"{number:,.0f}"
    return f"{number:.6f}".rstrip("0").rstrip(".")
