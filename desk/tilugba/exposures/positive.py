"""The exposure to each party: what the others, or one of them, would lose if it failed."""

from __future__ import annotations

from collections.abc import Iterator, Sequence
from dataclasses import dataclass
from decimal import Decimal

from .. import decimals
from .held import Held, History, kept, negative, positive, summed

EACH = "*"
# By party and asset, in each scenario.
Exposures = dict[tuple[str, str], list[int]]
Row = list[str]


@dataclass(frozen=True)
class Exposing:
    """Whose loss is counted (nothing: that of all others), whether pairs are netted, and the
    names of scenarios and the mode of a set.
    """

    history: History
    holder: str | None
    is_gross: bool
    scenarios: Sequence[str] | None = None
    mode: str = ""

    @property
    def parties(self) -> list[str]:
        return [it for it in self.history.parties if it != self.holder]

    def of_day(self, held: Held) -> Exposures:
        """What would be lost by each party's failure in each asset, in each scenario.

        What a payer is to pay is lost with it, and so is what a receiver is to pay, where the
        value is below 0.
        """
        count = len(self.scenarios) if self.scenarios else 1
        found: Exposures = {
            (party, asset): [0] * count for party in self.parties for asset in self.history.assets
        }
        for (payer, receiver, asset), rows in kept(held.values, self.holder).items():
            for values in rows if self.is_gross else [summed(rows)]:
                for party, lost in (payer, positive(values)), (receiver, negative(values)):
                    if party != self.holder:
                        found[party, asset] = summed([found[party, asset], lost])
        return found

    def rows(self) -> Iterator[Row]:
        """The table: a row for each day, party and asset, and behind them the greatest of all
        days with the day `*`.
        """
        is_set = self.scenarios is not None
        yield [
            "day",
            "party",
            "asset",
            *(["expected", "greatest", "scenario"] if is_set else ["exposure"]),
        ]
        peaks: dict[tuple[str, str], tuple[int, ...]] = {}
        for held in self.history.days:
            for at, values in self.of_day(held).items():
                numbers = self.numbers(values)
                peaks[at] = peak(peaks[at], numbers) if at in peaks else numbers
                yield [held.day, *at, *self.told(numbers)]
        for at, numbers in peaks.items():
            yield [EACH, *at, *self.told(numbers)]

    def numbers(self, values: list[int]) -> tuple[int, ...]:
        """The exposure; of a set the expected one, the greatest one, and the place of the first
        scenario that has it.
        """
        if self.scenarios is None:
            return (values[0],)
        greatest = max(values)
        return (
            decimals.quotient(sum(values), len(values), self.mode),
            greatest,
            values.index(greatest),
        )

    def told(self, numbers: tuple[int, ...]) -> Row:
        amounts = [self.text(it) for it in numbers[:2]]
        return amounts if self.scenarios is None else [*amounts, self.scenarios[numbers[2]]]

    def text(self, number: int) -> str:
        return decimals.text(Decimal(number).scaleb(-self.history.places, decimals.EXACT))


def peak(one: tuple[int, ...], other: tuple[int, ...]) -> tuple[int, ...]:
    """The greater exposure, and of a set the greater expected one, with the greatest and its
    scenario. The first counts.
    """
    first = (max(one[0], other[0]),)
    if len(one) == 1:
        return first
    return first + (other[1:] if other[1] > one[1] else one[1:])
