"""SWPPV, a fixed rate against one that is observed, and CAPFL, what a rate is above a cap or below
a floor.
"""

from __future__ import annotations

from .deals import BUYS, LENDS, SWAPS, Deal, Fixed, Floating, Kind, Rows, Setting, less, negative
from .loans import DAYS, INTEREST, PAM, RESET, interest_days, lifetime, periods, rates_of
from .premiums import PREMIUM, premium
from .trades import Trade

SWAP = ("currency", "initialExchangeDate", "maturityDate", "notionalPrincipal")
SWAP += ("nominalInterestRate", "dayCountConvention", *INTEREST[:1], *RESET[:2])
SWPPV = Kind(
    SWAPS,
    SWAP,
    DAYS
    + INTEREST[1:]
    + ("cycleAnchorDateOfRateReset", "rateSpread", "nextResetRate", "fixingPeriod")
    + ("nominalInterestRate2", "deliverySettlement")
    + PREMIUM,
)
CAPFL = Kind(
    BUYS | LENDS,
    (),
    ("currency", "lifeCap", "lifeFloor", "maturityDate") + PREMIUM,
    has_structure=True,
)


def swap(deal: Deal) -> Rows:
    """SWPPV: who receives fixed gets the fixed rate and pays the other one."""
    life, notional = lifetime(deal), deal.positive("notionalPrincipal")
    ends = interest_days(deal, life)
    fixed = Fixed(deal.decimal("nominalInterestRate"))
    rates = rates_of(deal, life, ends, "nominalInterestRate2")
    yield from premium(deal)
    for period in periods(life.start, ends):
        yield deal.coupon(period, notional, fixed, creator_gets=True)
        yield deal.coupon(period, notional, rates.of(period), creator_gets=False)


def cap_or_floor(trade: Trade, setting: Setting) -> Rows:
    """CAPFL: what the coupons of the loan below it are above the cap, or below the floor."""
    own = trade.fields
    names = [name for name in ("lifeCap", "lifeFloor") if own.has(name)]
    if len(names) != 1:
        what = "both are there" if names else "CAPFL without it, or lifeFloor, is not expressed"
        raise own.fault("lifeCap", what)
    below = underlying(trade)
    for name in ("currency", "maturityDate"):
        if own.has(name) and own.texts[name] != below.fields.texts[name]:
            raise own.fault(name, f"it is not that of the underlying, {below.fields.texts[name]}")
    whole = Deal.of(trade, setting, CAPFL)
    deal, bound = Deal.of(trade, setting, CAPFL, below.fields), whole.decimal(names[0])
    life, notional = lifetime(deal), deal.positive("notionalPrincipal")
    ends = interest_days(deal, life)
    rates = rates_of(deal, life, ends, "nominalInterestRate")
    yield from premium(whole)
    for period in periods(life.start, ends):
        rate = rates.of(period)
        if not isinstance(rate, Floating):
            name = (
                "nextResetRate"
                if below.fields.has("nextResetRate")
                else "cycleAnchorDateOfRateReset"
            )
            raise below.fields.fault(name, "a rate that is not observed has no cap and no floor")
        strike = bound if rate.spread is None else less(bound, rate.spread)
        # max(label, strike) - strike, or strike - min(label, strike) with the other sign.
        if names[0] == "lifeCap":
            payoff = Floating(rate.label, rate.day, spread=negative(strike), floor=strike)
            yield deal.coupon(period, notional, payoff, creator_gets=True)
        else:
            payoff = Floating(rate.label, rate.day, spread=negative(strike), cap=strike)
            yield deal.coupon(period, negative(notional), payoff, creator_gets=True)


def underlying(trade: Trade) -> Trade:
    """The loan that a cap or a floor is of: a PAM whose rate is observed."""
    if len(trade.structure) != 1:
        raise trade.fields.fault("contractStructure", "one underlying is expressed")
    found = trade.structure[0]
    for name, wanted in (("referenceType", "CNT"), ("referenceRole", "UDL")):
        if found.get(name) != wanted:
            raise trade.fields.fault(f"contractStructure: {name}", f"it is not {wanted}")
    if not isinstance(found.get("object"), dict):
        raise trade.fields.fault("contractStructure: object", "it is no object of terms")
    below = trade.inner({**who(trade), **found["object"]}, "object")
    if below.fields.texts.get("contractType") != "PAM":
        raise below.fields.fault("contractType", "a cap or a floor is of a PAM")
    PAM.check(below, "PAM")
    for name in ("lifeCap", "lifeFloor"):
        if below.fields.has(name):
            raise below.fields.fault(name, "it is not expressed below a cap or a floor")
    if not below.fields.has(RESET[0]):
        raise below.fields.fault(RESET[0], "CAPFL without it is not expressed")
    return below


def who(trade: Trade) -> dict[str, str]:
    """Who is in the underlying, if it does not say so: the parties of the trade. Its own role has
    no part in what is paid.
    """
    own = trade.fields.texts
    return {
        "contractID": own["contractID"],
        "contractRole": "RPA",
        "creatorID": own["creatorID"],
        "counterpartyID": own["counterpartyID"],
    }
