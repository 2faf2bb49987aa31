"""What all kinds of trades share: which terms they take, who pays whom, when, and the rows that
they become.
"""

from __future__ import annotations

from collections.abc import Iterator, Mapping
from dataclasses import dataclass, field
from decimal import Decimal

from ..calendars import BusinessDays
from ..days import date_text
from ..decimals import EXACT, text
from ..program import Program
from ..rows.fields import Fields
from ..texts.names import Declarations, NameSet
from . import schedules
from .schedules import Moves
from .trades import STRUCTURE, Trade

# The creator gets what a trade pays with 1, and pays it with -1.
LENDS, BUYS, SWAPS = {"RPA": 1, "RPL": -1}, {"BUY": 1, "SEL": -1}, {"RFL": 1, "PFL": -1}
WHO = ("contractID", "contractType", "contractRole", "creatorID", "counterpartyID")
# Terms that change nothing of what is paid, and terms that are taken with one value alone.
IDLE = ("contractDealDate", "statusDate", "marketValueObserved", "contractName")
ONLY = {
    "contractPerformance": ("PF",),
    "prepaymentEffect": ("N",),
    "penaltyType": ("N", "O"),
    "scalingEffect": ("000", "OOO"),
    "interestCalculationBase": ("NT",),
    "clearingHouse": ("N",),
}
ZERO = ("accruedInterest", "feeRate", "feeAccrued")
ONE = ("rateMultiplier", "interestScalingMultiplier", "notionalScalingMultiplier")
# What rows call their columns in a fault.
TOLD = {
    "contract": "contractID",
    "from": "creatorID",
    "to": "counterpartyID",
    "asset": "currency",
    "amount": "notionalPrincipal",
    "notional": "notionalPrincipal",
    "label": "marketObjectCodeOfRateReset",
    "fixing date": "fixingPeriod",
    "numerator": "dayCountConvention",
    "denominator": "dayCountConvention",
    "spread": "nominalInterestRate",
    "floor": "lifeFloor",
    "cap": "lifeCap",
}


@dataclass(frozen=True)
class Setting:
    """What trades are turned into rows with."""

    declared: Declarations
    mode: str
    own_days: BusinessDays | None
    program: Program


@dataclass(frozen=True)
class Fixed:
    """A rate that is known."""

    rate: Decimal


@dataclass(frozen=True)
class Floating:
    """A rate that is observed on a day, with what is added to it and between which bounds it is."""

    label: str
    day: int
    spread: Decimal | None = None
    floor: Decimal | None = None
    cap: Decimal | None = None


Rate = Fixed | Floating


@dataclass(frozen=True)
class Period:
    """A part of a year of interest: from a day to another, as they are before days are moved."""

    start: int
    end: int


@dataclass(frozen=True)
class Kind:
    """The terms of a kind of trade beside those that all have: the roles, which it needs, and which
    it may have.
    """

    roles: Mapping[str, int]
    needs: tuple[str, ...]
    may_have: tuple[str, ...] = ()
    only: Mapping[str, tuple[str, ...]] = field(default_factory=dict)
    has_structure: bool = False

    def check(self, trade: Trade, kind: str) -> None:
        """Refuses a term that is missing, or that this command does not express."""
        fields = trade.fields
        only = {**ONLY, **self.only}
        for name in (*WHO, *self.needs):
            if not fields.has(name):
                raise fields.fault(name, f"{kind} without it is not expressed")
        for name, value in fields.texts.items():
            if name in only:
                is_taken = value in only[name]
            elif name in ZERO or name in ONE:
                is_taken = Decimal(fields.decimal(name)) == (name in ONE)
            elif name in (*WHO, *IDLE, *self.needs, *self.may_have):
                continue
            else:
                raise fields.fault(name, f"it is not expressed for {kind}")
            if not is_taken:
                raise fields.fault(name, f"{value} is not expressed for {kind}")
        if self.has_structure != bool(trade.structure):
            what = f"{kind} without it is not expressed"
            raise fields.fault(STRUCTURE, what if self.has_structure else f"not with {kind}")


@dataclass(frozen=True)
class Deal:
    """A trade as it is turned into rows. `fields` are its terms, or those of what it refers to."""

    trade: Trade
    fields: Fields
    setting: Setting
    moves: Moves
    sign: int

    @classmethod
    def of(cls, trade: Trade, setting: Setting, kind: Kind, terms: Fields | None = None) -> Deal:
        fields = terms or trade.fields
        sign = kind.roles[trade.fields.one_of("contractRole", list(kind.roles))]
        return cls(trade, fields, setting, schedules.moves_of(fields, setting.own_days), sign)

    # ---- terms

    def date(self, name: str) -> int:
        return schedules.date(self.fields, name)

    def decimal(self, name: str) -> Decimal:
        """A number, without zeros at its end."""
        return short(Decimal(self.fields.decimal(name)))

    def decimal_or(self, name: str, otherwise: Decimal | None) -> Decimal | None:
        return self.decimal(name) if self.fields.has(name) else otherwise

    def positive(self, name: str) -> Decimal:
        number = self.decimal(name)
        if number < 0:
            raise self.fields.fault(name, f"{text(number)} is below 0")
        return number

    def asset(self, name: str = "currency") -> str:
        return self.fields.declared(name, self.setting.declared.names(NameSet.ASSET), "asset")

    def decimals(self, name: str = "currency") -> int:
        """The decimals of an asset."""
        found = self.setting.declared.names(NameSet.ASSET)[self.asset(name)].decimals
        return self.setting.declared.amounts if found is None else found

    def label(self, fields: Fields, name: str) -> str:
        """A number that is observed."""
        return fields.declared(name, self.setting.declared.numbers(), "number that is observed")

    def to_month_end(self) -> bool:
        name = "endOfMonthConvention"
        return self.fields.has(name) and self.fields.one_of(name, schedules.MONTH_ENDS) == "EOM"

    # ---- rows

    def amount(
        self,
        day: int,
        amount: Decimal,
        creator_gets: bool,
        asset: str = "currency",
        name: str = "notionalPrincipal",
    ) -> Fields:
        """A payment of an amount, whose term has this name, on a day before it is moved."""
        told = {"asset": asset, "amount": name}
        return self.row(
            self.moves.paid(day), creator_gets, self.asset(asset), told, amount=text(amount)
        )

    def coupon(self, period: Period, notional: Decimal, rate: Rate, creator_gets: bool) -> Fields:
        """The interest of a period, which is paid at its end."""
        start, end = self.moves.counted(period.start), self.moves.counted(period.end)
        maturity = self.moves.counted(self.date("maturityDate"))
        part = schedules.part_of_year(self.fields, start, end, maturity)
        return self.interest(self.moves.paid(period.end), notional, rate, part, creator_gets)

    def interest(
        self,
        day: int,
        notional: Decimal,
        rate: Rate,
        part: tuple[int, int],
        creator_gets: bool,
        told: Mapping[str, str] | None = None,
    ) -> Fields:
        """A rate, times a notional and a part of a year, on a day."""
        numbers = {"notional": text(notional), "numerator": str(part[0])}
        columns = self.rate_columns(rate) | numbers | {"denominator": str(part[1])}
        return self.row(day, creator_gets, self.asset(), told or {}, **columns)

    def rate_columns(self, rate: Rate) -> dict[str, str]:
        mode = {"mode": self.setting.mode}
        if isinstance(rate, Fixed):
            return mode | {"spread": text(rate.rate)}
        columns = {"label": rate.label, "fixing date": date_text(rate.day) or ""}
        numbers = (("spread", rate.spread), ("floor", rate.floor), ("cap", rate.cap))
        return mode | columns | {name: text(it) for name, it in numbers if it is not None}

    def row(
        self, day: int, creator_gets: bool, asset: str, told: Mapping[str, str], **columns: str
    ) -> Fields:
        """A row of a table of payments."""
        own = self.trade.fields
        parties = own.text("creatorID"), own.text("counterpartyID")
        receives = creator_gets == (self.sign > 0)
        receiver, payer = parties if receives else parties[::-1]
        names = {**TOLD, **told}
        if receives:
            names |= {"from": "counterpartyID", "to": "creatorID"}
        texts = {
            "contract": own.text("contractID"),
            "date": date_text(day) or "",
            "from": payer,
            "to": receiver,
            "asset": asset,
            **columns,
        }
        return Fields(own.where, texts, {**names, "date": "date of a payment"})


def short(number: Decimal) -> Decimal:
    """The same number without zeros at its end."""
    written = f"{number:f}"
    return Decimal(written.rstrip("0").rstrip(".") if "." in written else written)


def less(one: Decimal, other: Decimal) -> Decimal:
    """The difference, exactly."""
    return short(EXACT.subtract(one, other))


def negative(number: Decimal) -> Decimal:
    return less(Decimal(0), number)


def more(one: Decimal, other: Decimal) -> Decimal:
    """The sum, exactly."""
    return short(EXACT.add(one, other))


Rows = Iterator[Fields]
