"""PAM, LAM and ANN: loans that are paid back at their end, in equal parts, or with equal payments.

Interest of a period is that of one rate on one notional, so a trade in which either changes within
a period is refused.
"""

from __future__ import annotations

from collections.abc import Sequence
from dataclasses import dataclass
from decimal import Decimal

from ..program import Program, Status, Stop
from ..rows.fields import Fields
from . import schedules
from .deals import LENDS, Deal, Fixed, Floating, Kind, Period, Rate, Rows, less, more

DAYS = ("businessDayConvention", "calendar", "endOfMonthConvention")
LOAN = ("currency", "initialExchangeDate", "maturityDate", "notionalPrincipal")
LOAN += ("nominalInterestRate", "dayCountConvention")
INTEREST = ("cycleOfInterestPayment", "cycleAnchorDateOfInterestPayment")
RESET = ("marketObjectCodeOfRateReset", "cycleOfRateReset", "cycleAnchorDateOfRateReset")
RESET += ("rateSpread", "nextResetRate", "fixingPeriod", "lifeCap", "lifeFloor")
REDEMPTION = ("cycleOfPrincipalRedemption", "nextPrincipalRedemptionPayment")
ANCHOR = ("cycleAnchorDateOfPrincipalRedemption",)
PAM = Kind(LENDS, LOAN, DAYS + INTEREST + RESET + ("premiumDiscountAtIED",))
LAM = Kind(LENDS, LOAN + REDEMPTION, DAYS + INTEREST + RESET + ANCHOR + ("premiumDiscountAtIED",))
ANN = Kind(LENDS, LOAN + REDEMPTION, DAYS + INTEREST + ANCHOR + ("premiumDiscountAtIED",))
# So many periods go into one question, whose names are one in another.
MOST_STEPS = 150


# ---- dates


def lifetime(deal: Deal) -> Period:
    """From the first day to the last one."""
    begins, ends = deal.date("initialExchangeDate"), deal.date("maturityDate")
    if begins >= ends:
        raise deal.fields.fault("maturityDate", "it is not after initialExchangeDate")
    return Period(begins, ends)


def days_of_cycle(deal: Deal, what: str, anchor: int, life: Period) -> list[int]:
    """The days of the cycle of something from its anchor on, up to the end of the trade."""
    name = f"cycleOf{what}"
    return schedules.cycle_dates(
        anchor, schedules.cycle(deal.fields, name), life.end, deal.to_month_end()
    )


def anchor_of(deal: Deal, what: str, life: Period) -> int:
    """The anchor of the cycle of something, which is the first day if none is named."""
    name = f"cycleAnchorDateOf{what}"
    if not deal.fields.has(name):
        return life.start
    anchor = deal.date(name)
    if not life.start <= anchor <= life.end:
        raise deal.fields.fault(name, "it is not from initialExchangeDate to maturityDate")
    return anchor


def interest_days(deal: Deal, life: Period) -> list[int]:
    """The ends of the periods of interest."""
    what = "InterestPayment"
    if not deal.fields.has(f"cycleOf{what}"):
        if deal.fields.has(f"cycleAnchorDateOf{what}"):
            raise deal.fields.fault(f"cycleOf{what}", "it is missing, and there is an anchor")
        return [life.end]
    found = days_of_cycle(deal, what, anchor_of(deal, what, life), life)
    return [day for day in found if day > life.start]


def redemption_days(deal: Deal, life: Period) -> list[int]:
    """When parts of the principal are paid back, before the end and at it. Without an anchor the
    first is a cycle after the first day.
    """
    what = "PrincipalRedemption"
    found = days_of_cycle(deal, what, anchor_of(deal, what, life), life)
    return [day for day in found if day > life.start]


def periods(begins: int, ends: Sequence[int]) -> list[Period]:
    return [Period(start, end) for start, end in zip([begins, *ends], ends)]


# ---- rates


@dataclass(frozen=True)
class Rates:
    """The rate of each period: fixed up to the first reset, and then that of the last reset."""

    deal: Deal
    first: Rate
    resets: Sequence[int]

    def of(self, period: Period) -> Rate:
        since = [day for day in self.resets if day <= period.start]
        if not since:
            return self.first
        deal = self.deal
        if len(since) == 1 and (known := deal.decimal_or("nextResetRate", None)) is not None:
            return Fixed(known)
        return self.floating(since[-1])

    def floating(self, reset: int) -> Floating:
        """The rate that a reset finds: bounds of the whole rate are those of the label, less the
        spread.
        """
        deal, fields = self.deal, self.deal.fields
        label = deal.label(fields, RESET[0])
        spread = deal.decimal_or("rateSpread", None)
        floor, cap = (
            None if it is None else less(it, spread or Decimal(0))
            for it in (deal.decimal_or(name, None) for name in ("lifeFloor", "lifeCap"))
        )
        fixed = deal.moves.later(deal.moves.counted(reset), -schedules.days(fields, "fixingPeriod"))
        return Floating(label, fixed, spread, floor, cap)


def rates_of(deal: Deal, life: Period, ends: Sequence[int], first: str) -> Rates:
    """The rates of a trade. Resets within a period of interest are refused."""
    fields = deal.fields
    known = Fixed(deal.decimal(first)) if fields.has(first) else Fixed(Decimal(0))
    if not fields.has(RESET[0]):
        for name in RESET[1:]:
            if fields.has(name):
                raise fields.fault(RESET[0], f"it is missing, and there is {name}")
        return Rates(deal, known, [])
    resets = days_of_cycle(deal, "RateReset", anchor_of(deal, "RateReset", life), life)
    resets = [day for day in resets if day < life.end]
    if not set(resets) <= {life.start, *ends}:
        raise fields.fault("cycleOfRateReset", "a rate is reset within a period of interest")
    if (not resets or resets[0] > life.start) and not fields.has(first):
        raise fields.fault(first, "it is missing, and the first rate is not observed")
    return Rates(deal, known, resets)


# ---- the kinds


def exchange(deal: Deal, life: Period, notional: Decimal) -> Fields:
    """What is paid out on the first day."""
    paid = more(notional, deal.decimal_or("premiumDiscountAtIED", None) or Decimal(0))
    return deal.amount(life.start, paid, creator_gets=False)


def bullet(deal: Deal) -> Rows:
    """PAM: the notional is paid back at the end."""
    life, notional = lifetime(deal), deal.positive("notionalPrincipal")
    ends = interest_days(deal, life)
    rates = rates_of(deal, life, ends, "nominalInterestRate")
    yield exchange(deal, life, notional)
    for period in periods(life.start, ends):
        yield deal.coupon(period, notional, rates.of(period), creator_gets=True)
    yield deal.amount(life.end, notional, creator_gets=True)


def whole_terms(deal: Deal, life: Period) -> None:
    """Refuses the terms of a loan that has begun: they have what is left of the notional on that
    day.
    """
    name = "statusDate"
    if deal.fields.has(name) and deal.date(name) > life.start:
        raise deal.fields.fault(name, "it is after initialExchangeDate: give the first terms")


def in_parts(deal: Deal) -> Rows:
    """LAM: the same part of the notional is paid back on each day of a cycle, and at the end what
    is left.
    """
    life, left = lifetime(deal), deal.positive("notionalPrincipal")
    whole_terms(deal, life)
    part = deal.positive("nextPrincipalRedemptionPayment")
    ends, redeemed = interest_days(deal, life), redemption_days(deal, life)
    if not set(redeemed) <= set(ends):
        name = "cycleOfPrincipalRedemption"
        raise deal.fields.fault(name, "principal is paid back within a period of interest")
    rates = rates_of(deal, life, ends, "nominalInterestRate")
    yield exchange(deal, life, left)
    for period in periods(life.start, ends):
        if left == 0:
            return
        yield deal.coupon(period, left, rates.of(period), creator_gets=True)
        paid = left if period.end == life.end else min(part, left)
        if period.end in redeemed and paid:
            yield deal.amount(period.end, paid, creator_gets=True)
            left = less(left, paid)


def with_equal_payments(deal: Deal) -> Rows:
    """ANN: the same amount is paid on each day of a cycle, interest and principal together, and at
    the end what is left.
    """
    life, notional = lifetime(deal), deal.positive("notionalPrincipal")
    whole_terms(deal, life)
    payment, rate = deal.positive(REDEMPTION[1]), Fixed(deal.decimal("nominalInterestRate"))
    redeemed = redemption_days(deal, life)
    ends = sorted({*redeemed, *interest_before(deal, life, redeemed)})
    found = periods(life.start, ends)
    coupons = [deal.coupon(period, notional, rate, creator_gets=True) for period in found]
    left = [notional for period in found if period.end < redeemed[0]]
    left += Annuity(deal, payment, coupons[len(left) :]).notionals(notional)
    yield exchange(deal, life, notional)
    for period, now, then in zip(found, left, [*left[1:], Decimal(0)]):
        if now > 0:
            yield deal.coupon(period, now, rate, creator_gets=True)
            then = Decimal(0) if period.end == life.end else max(then, Decimal(0))
            if now != then:
                yield deal.amount(period.end, less(now, then), creator_gets=True)


def interest_before(deal: Deal, life: Period, redeemed: Sequence[int]) -> list[int]:
    """The days of interest before the first payment: later ones are those of the payments."""
    if not deal.fields.has("cycleOfInterestPayment"):
        return []
    found = interest_days(deal, life)
    if any(day > redeemed[0] and day not in redeemed for day in found):
        name = "cycleOfInterestPayment"
        raise deal.fields.fault(name, "interest is paid between two payments of principal")
    return [day for day in found if day < redeemed[0]]


@dataclass(frozen=True)
class Annuity:
    """Asks the program what is left of a notional behind each equal payment, since interest is in
    it.
    """

    deal: Deal
    payment: Decimal
    coupons: Sequence[Fields]

    def notionals(self, notional: Decimal) -> list[Decimal]:
        """What is owed in each period. Once it is below 0, so are all that follow."""
        found = [notional]
        steps = self.coupons[:-1]
        for first in range(0, len(steps), MOST_STEPS):
            found += self.some(found[-1], steps[first : first + MOST_STEPS])
        return found

    def some(self, notional: Decimal, coupons: Sequence[Fields]) -> list[Decimal]:
        decimals = self.deal.decimals()
        lets, paid = f"let n0 = {notional:f} in ", []
        for number, coupon in enumerate(coupons):
            it = coupon.texts
            product = f"(({it['spread']} * n{number}) * {it['numerator']})"
            interest = f"div({it['mode']}, {decimals}, {product}, {it['denominator']})"
            lets += f"let n{number + 1} = (n{number} + ({interest} - {self.payment:f})) in "
            paid.append(f"after({number + 1}, scale(n{number + 1}, pay(A, P, Q)))")
        head = f"portfolio 1; amounts {decimals}; party P, Q; asset A;"
        book = f"{head} contract left = {lets}{together(paid)};"
        return self.answers(self.deal.setting.program, book, len(coupons))

    def answers(self, program: Program, book: str, count: int) -> list[Decimal]:
        answer = program.run("flows", book.encode())
        if fault := answer.fault:
            what = f"the program does not compute what is left: {fault.message}"
            raise Stop(Status.REFUSED, self.deal.fields.fault(REDEMPTION[1], what).message)
        found = [Decimal(0)] * count
        for line in answer.text.splitlines():
            _, day, payer, _, _, amount = line.split(",")
            found[int(day) - 1] = Decimal(amount) if payer == "P" else -Decimal(amount)
        return found


def together(terms: Sequence[str]) -> str:
    """A balanced tree."""
    if len(terms) == 1:
        return terms[0]
    half = (len(terms) + 1) // 2
    return f"both({together(terms[:half])}, {together(terms[half:])})"
