"""FXOUT, an amount in one currency against one in another, and OPTNS, what a rate is above or below
a strike.
"""

from __future__ import annotations

from decimal import Decimal

from . import schedules
from .deals import BUYS, LENDS, Deal, Floating, Kind, Rows, negative
from .loans import DAYS
from .premiums import PREMIUM, premium
from .trades import STRUCTURE

MARKET_OBJECT = "marketObjectCode"

FXOUT = Kind(
    BUYS | LENDS,
    ("currency", "currency2", "notionalPrincipal", "notionalPrincipal2", "maturityDate"),
    DAYS + ("settlementPeriod", "deliverySettlement") + PREMIUM,
)
OPTNS = Kind(
    BUYS | LENDS,
    ("currency", "optionType", "optionStrike1", "maturityDate"),
    DAYS + ("notionalPrincipal", "optionExerciseEndDate", "settlementPeriod") + PREMIUM,
    only={"optionExerciseType": ("E",), "deliverySettlement": ("S",)},
    has_structure=True,
)


def settled(deal: Deal, day: int) -> int:
    """The day on which something of a day is settled, some business days later."""
    later = schedules.days(deal.fields, "settlementPeriod")
    return deal.moves.later(day, later) if later else deal.moves.paid(day)


def exchange_of_currencies(deal: Deal) -> Rows:
    """FXOUT: the creator gets the first amount and pays the second; in cash, both in the first
    currency at the rate of the day.
    """
    first, second = deal.positive("notionalPrincipal"), deal.positive("notionalPrincipal2")
    day = deal.date("maturityDate")
    paid = settled(deal, day)
    name = "deliverySettlement"
    way = deal.fields.one_of(name, ("D", "S")) if deal.fields.has(name) else "D"
    yield from premium(deal)
    yield deal.amount(paid, first, creator_gets=True)
    if way == "D":
        yield deal.amount(paid, second, False, asset="currency2", name="notionalPrincipal2")
        return
    label = deal.fields.text("currency2") + deal.fields.text("currency")
    if label not in deal.setting.declared.numbers():
        raise deal.fields.fault("currency2", f"in cash it wants the declared number {label}")
    told = {"label": "currency2", "notional": "notionalPrincipal2", "fixing date": "maturityDate"}
    yield deal.interest(paid, second, Floating(label, day), (1, 1), False, told)


def option(deal: Deal) -> Rows:
    """OPTNS: what a rate is above the strike for a call, below it for a put, on one day."""
    fields = deal.fields
    kind = fields.one_of("optionType", ("C", "P"))
    strike = deal.positive("optionStrike1")
    notional = deal.positive("notionalPrincipal") if fields.has("notionalPrincipal") else Decimal(1)
    name = "optionExerciseEndDate" if fields.has("optionExerciseEndDate") else "maturityDate"
    day = deal.date(name)
    if day > deal.date("maturityDate"):
        raise fields.fault(name, "it is after maturityDate")
    label = market_object(deal)
    rate = Floating(label, day, spread=negative(strike), floor=strike)
    if kind == "P":
        # strike - min(label, strike), with the other sign.
        rate = Floating(label, day, spread=negative(strike), cap=strike)
        notional = negative(notional)
    yield from premium(deal)
    told = {"label": STRUCTURE, "fixing date": name}
    told |= dict.fromkeys(("spread", "floor", "cap"), "optionStrike1")
    yield deal.interest(settled(deal, day), notional, rate, (1, 1), True, told)


def market_object(deal: Deal) -> str:
    """The label of the rate that an option is on."""
    fields = deal.trade.fields
    if len(deal.trade.structure) != 1:
        raise fields.fault(STRUCTURE, "one underlying is expressed")
    found = deal.trade.structure[0]
    for name, wanted in (("referenceType", "MOC"), ("referenceRole", "UDL")):
        if found.get(name) != wanted:
            raise fields.fault(f"{STRUCTURE}: {name}", f"it is not {wanted}")
    if not isinstance(found.get("object"), dict):
        raise fields.fault(f"{STRUCTURE}: object", "it is no object of terms")
    below = deal.trade.inner(found["object"], "object").fields
    for name in below.texts:
        if name != MARKET_OBJECT:
            raise below.fault(name, "it is not expressed below OPTNS")
    return deal.label(below, MARKET_OBJECT)
