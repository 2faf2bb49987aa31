"""What the records of a table of payments pay: amounts, and coupons as formulas that the program
computes.
"""

from __future__ import annotations

from collections.abc import Iterator
from dataclasses import dataclass
from decimal import Decimal

from ..calendars import Mover
from ..days import Calendar, date_text
from ..explanations.notes import counted
from ..files import read_file
from ..program import Status, Stop
from ..tables import Record, records
from ..texts.grammar import MODES
from ..texts.names import Declarations, NameSet
from .fields import Fields, decimals_of

PLAIN = ("contract", "date", "from", "to", "asset", "amount")
COUPON = ("label", "fixing date", "notional", "numerator", "denominator", "mode")
COUPON += ("spread", "floor", "cap")
FARTHEST, MOST_DECIMALS = 100_000, 27


@dataclass(frozen=True)
class Payment:
    """A payment: its record, its contract, how many days after the start it is, and its term."""

    record: int
    fields: Fields
    contract: str
    day: int
    term: str


@dataclass(frozen=True)
class Payments:
    """Reads the records of a file of payments, which go with some declarations."""

    path: str
    declared: Declarations
    mover: Mover

    @property
    def calendar(self) -> Calendar:
        return Calendar(self.declared.origin)

    def of(self, data: bytes) -> Iterator[Payment]:
        """The payments of a table."""
        found = list(records(data))
        header = found[0].texts if found else ()
        if header not in (PLAIN, PLAIN + COUPON):
            both = f"{','.join(PLAIN)}, or that and {','.join(COUPON)}"
            raise Stop(Status.ROW, f"{self.path}: record 1: the header is {both}")
        return (self.payment(it, header) for it in found[1:])

    def payment(self, record: Record, header: tuple[str, ...]) -> Payment:
        where = f"{self.path}: record {record.number}"
        if len(record.fields) != len(header):
            has = f"it has {counted(len(record.fields), 'field')}, and the header has {len(header)}"
            raise Stop(Status.ROW, f"{where}: {has}")
        return self.payment_of(Fields(where, dict(zip(header, record.texts))), record.number)

    def payment_of(self, fields: Fields, number: int) -> Payment:
        """The payment of the fields of a record."""
        contract, day = fields.new_name("contract"), self.day(fields)
        parties = self.declared.names(NameSet.PARTY)
        payer, receiver = (fields.declared(it, parties, "party") for it in ("from", "to"))
        asset = fields.declared("asset", self.declared.names(NameSet.ASSET), "asset")
        decimals = self.declared.names(NameSet.ASSET)[asset].decimals
        decimals = self.declared.amounts if decimals is None else decimals
        size = self.size(fields, day, decimals)
        later = day - self.declared.start
        term = f"after({later}, scale({size}, pay({asset}, {payer}, {receiver})))"
        return Payment(number, fields, contract, later, term)

    def day(self, fields: Fields) -> int:
        """The day of the payment, which is moved if it is closed."""
        day, start = fields.day("date", self.calendar), self.declared.start
        day = self.moved(fields, day)
        if day < start:
            first = self.calendar.told(start)
            raise fields.fault("date", f"{self.calendar.text(day)} is before the start, {first}")
        if day > start + FARTHEST:
            raise fields.fault("date", f"it is more than {FARTHEST:,} days after the start")
        return day

    def moved(self, fields: Fields, day: int) -> int:
        if self.mover.roll is None:
            return day
        origin = self.declared.origin
        if origin is None:
            raise fields.fault("date", "without an origin no day is a date that --roll may move")
        if date_text(origin + day) is None:
            raise fields.fault("date", "its year does not have four digits")
        return self.mover.moved(origin + day) - origin

    def size(self, fields: Fields, day: int, decimals: int) -> str:
        """What is paid: an amount, or the formula of a coupon."""
        if fields.has("notional"):
            if fields.has("amount"):
                raise fields.fault("amount", "with a notional there is no amount: it is computed")
            return self.coupon(fields, day, decimals)
        for name in COUPON:
            if fields.has(name):
                raise fields.fault(name, "without a notional there is no coupon")
        return fields.decimal("amount", decimals)

    def coupon(self, fields: Fields, day: int, decimals: int) -> str:
        """Rate, notional and part of a year, rounded once."""
        mode = fields.one_of("mode", MODES)
        numerator, denominator = fields.whole("numerator", 0), fields.whole("denominator", 1)
        notional = fields.decimal("notional")
        rate, places = self.rate(fields, day)
        if places + decimals_of(notional) > MOST_DECIMALS:
            has = f"the rate has {places} decimals, and together there are more than"
            raise fields.fault("notional", f"{has} {MOST_DECIMALS}")
        product = f"(({rate} * {notional}) * {numerator})"
        return f"div({mode}, {decimals}, {product}, {denominator})"

    def rate(self, fields: Fields, day: int) -> tuple[str, int]:
        """The rate of a coupon, `min(cap, max(floor, label)) + spread`, with its decimals."""
        if not fields.has("label"):
            for name in ("fixing date", "floor", "cap"):
                if fields.has(name):
                    raise fields.fault(name, "without a label the spread is the rate")
            spread = fields.decimal("spread")
            return spread, decimals_of(spread)
        numbers = self.declared.numbers()
        label = fields.declared("label", numbers, "number that is observed")
        rate = f"obs({label}, {self.fixing(fields, day)})"
        places = [self.declared.names(NameSet.LABEL)[label].decimals or 0]
        for name, form in (
            ("floor", "max({}, {})"),
            ("cap", "min({}, {})"),
            ("spread", "({1} + {0})"),
        ):
            if fields.has(name):
                number = fields.decimal(name)
                rate = form.format(number, rate)
                places.append(decimals_of(number))
        if fields.has("floor") and fields.has("cap"):
            floor, cap = fields.texts["floor"], fields.texts["cap"]
            if Decimal(floor) > Decimal(cap):
                raise fields.fault("floor", f"{floor} is above the cap {cap}")
        return rate, max(places)

    def fixing(self, fields: Fields, day: int) -> int:
        """How many days before the payment, as a number that is not above 0, the label is fixed."""
        fixing = fields.day("fixing date", self.calendar)
        if fixing > day:
            paid = self.calendar.text(day)
            raise fields.fault("fixing date", f"it is after the payment, which is on {paid}")
        if day - fixing > 1_000_000 - FARTHEST:
            raise fields.fault("fixing date", "it is too long before the payment")
        return fixing - day


def read_payments(path: str, declared: Declarations, mover: Mover) -> list[Payment]:
    """The payments of a file."""
    return list(Payments(path, declared, mover).of(read_file(path)))
