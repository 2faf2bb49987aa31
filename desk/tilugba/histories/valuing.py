"""Values of a book over its rates, as they were known on each day."""

from __future__ import annotations

from collections.abc import Iterable, Iterator
from dataclasses import dataclass

from ..lines import VALUE
from ..program import Answer, Fault, MissingFixing, Status, Stop
from .asked import Asked, Place
from .deals import Deal, Pair
from .rates import Rates

NO_ROWS = b"label,day,value\n"


@dataclass(frozen=True)
class Worth:
    """What a contract is worth on a day between a pair, as it was printed."""

    day: int
    deal: Deal
    pair: Pair
    value: str


class OverRates(Asked):
    """A book over a table of fixings."""

    command = "value"
    rates: Rates

    def take_table(self, data: bytes) -> None:
        super().take_table(data)
        self.rates = Rates(data, self.book.calendar)

    def table(self, deal: Deal, day: int) -> bytes:
        return self.rates.table(deal.reads, day, self.days.rates_to)

    def whole(self, day: int) -> bytes:
        return self.rates.whole(day, self.days.rates_to)

    def worth(self, answers: Iterable[Answer]) -> Iterator[Worth]:
        """The values of all calls, in order."""
        return map(self.worth_at, self.places(), answers)

    def worth_at(self, place: Place, answer: Answer) -> Worth:
        """The value of a call."""
        told = self.settled(place, answer)[0].removesuffix("\n")
        if not VALUE.fullmatch(told):
            raise Stop(Status.DESK, f"no value: {told[:80]}")
        return Worth(place.day, place.it.deal, place.pair, told)

    def said(self, place: Place, fault: Fault) -> str:
        told, missing = super().said(place, fault), fault.cause
        if isinstance(missing, MissingFixing) and missing.day > self.days.rates_to:
            behind = self.book.calendar.text(missing.day)
            return f"{told}; the last rates hold up to --rates-to, and {behind} is behind that day"
        return told
