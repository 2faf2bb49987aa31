"""Legs and options of QuantLib as a table of payments for `rows`, with the fixings that they read,
and a curve as factors.

For scripts that have QuantLib's objects already: any schedule of theirs comes in by this door.
"""

from __future__ import annotations

import re
from collections.abc import Iterable
from dataclasses import dataclass, field
from decimal import ROUND_HALF_EVEN, Decimal
from fractions import Fraction
from typing import Any

from ..quantlib import library
from ..rows.payments import COUPON, PLAIN
from ..tables import FIXINGS, lines_of
from .schedules import YEARS

# What a coupon may be off in doubles, for each unit of its nominal.
CLOSE = 1e-9


def rounded(number: float, places: int) -> str:
    """A double as a decimal, the nearest one, at the middle the even one."""
    unit = Decimal(1).scaleb(-places)
    return format(Decimal(number).quantize(unit, ROUND_HALF_EVEN), "f")


def plain(number: float) -> str:
    """The shortest decimal that is read as this double, so 0.0325 and not 0.032500000000000001."""
    return format(Decimal(repr(number)).normalize(), "f")


@dataclass
class Legs:
    """Rows of a table of payments. What is past on the first day, a date of QuantLib, is no row."""

    first: Any
    mode: str = "half_even"
    decimals: int = 2
    rate_decimals: int = 5
    rows: list[dict[str, str]] = field(default_factory=list)
    fixings: dict[tuple[str, str], tuple[str, bool]] = field(default_factory=dict)

    def add_leg(
        self, contract: str, leg: Iterable[Any], asset: str, payer: str, receiver: str
    ) -> None:
        """The cash flows of a leg: a coupon by its own formula, and anything else as the amount
        that it has.
        """
        for flow in leg:
            if flow.date() >= self.first:
                self.add(contract, flow.date(), asset, payer, receiver, self.columns(flow))

    def add_option(
        self,
        contract: str,
        payoff: Any,
        expiry: Any,
        label: str,
        nominal: float,
        asset: str,
        payer: str,
        receiver: str,
    ) -> None:
        """What a plain payoff on a label pays on the day of expiry."""
        strike, is_call = plain(payoff.strike()), payoff.optionType() == library().Option.Call
        bound = {"floor": strike} if is_call else {"cap": strike}
        columns = {
            "label": label,
            "fixing date": expiry.ISO(),
            "notional": plain(nominal if is_call else -nominal),
            "numerator": "1",
            "denominator": "1",
            "mode": self.mode,
            "spread": plain(-payoff.strike()),
        }
        self.add(contract, expiry, asset, payer, receiver, columns | bound)

    def add(
        self,
        contract: str,
        date: Any,
        asset: str,
        payer: str,
        receiver: str,
        columns: dict[str, str],
    ) -> None:
        row = {
            "contract": contract,
            "date": date.ISO(),
            "from": payer,
            "to": receiver,
            "asset": asset,
        }
        self.rows.append(row | columns)

    def columns(self, flow: Any) -> dict[str, str]:
        """What a cash flow is: an amount, or a rate on a nominal for a part of a year."""
        ql = library()
        floating = ql.as_floating_rate_coupon(flow)
        coupon = floating or ql.as_fixed_rate_coupon(flow)
        if not coupon:
            if ql.as_coupon(flow) or ql.as_indexed_cashflow(flow):
                what = "has an index that is not known here"
                raise ValueError(f"the payment of {flow.date().ISO()} {what}")
            return {"amount": rounded(flow.amount(), self.decimals)}
        part = Fraction(coupon.accrualPeriod()).limit_denominator(YEARS)
        rate = (
            floating.gearing() * floating.indexFixing() + floating.spread()
            if floating
            else coupon.rate()
        )
        # A coupon that is capped or compounded has another formula.
        if abs(coupon.nominal() * rate * part - flow.amount()) > CLOSE * coupon.nominal():
            what = "is not nominal, rate and part of a year"
            raise ValueError(f"the coupon of {flow.date().ISO()} {what}")
        notional = Decimal(plain(coupon.nominal()))
        own = self.observed(floating) if floating else {"spread": plain(rate)}
        if floating:
            notional *= Decimal(plain(floating.gearing()))
        return own | {
            "notional": f"{notional:f}",
            "numerator": str(part.numerator),
            "denominator": str(part.denominator),
            "mode": self.mode,
        }

    def observed(self, coupon: Any) -> dict[str, str]:
        """The label of a coupon's rate, when it is fixed, and its spread; keeps the rate.

        The notional takes the gearing, so the spread is one of the label.
        """
        index, date = coupon.index(), coupon.fixingDate()
        name = re.sub(r"\W.*", "", index.name())
        today = library().Settings.instance().evaluationDate
        is_known = date <= today and index.hasHistoricalFixing(date)
        self.fixings[name, date.ISO()] = rounded(coupon.indexFixing(), self.rate_decimals), is_known
        return {"label": name, "fixing date": date.ISO(), "spread": spread_of(coupon)}

    def table(self) -> str:
        """The table of payments."""
        header = [*PLAIN, *COUPON]
        return "".join(
            lines_of([header, *([row.get(it, "") for it in header] for row in self.rows)])
        )

    def fixings_table(self, with_assumed: bool = False) -> str:
        """What was observed; with what QuantLib reckons for days to come, a table for `value` and
        never for `advance`.
        """
        rows = [
            [name, date, value]
            for (name, date), (value, is_known) in self.fixings.items()
            if is_known or with_assumed
        ]
        return "".join(lines_of([FIXINGS, *rows]))


def spread_of(coupon: Any) -> str:
    """The spread for a unit of the gearing."""
    what = f"the coupon of {coupon.date().ISO()} has"
    if coupon.gearing() == 0:
        raise ValueError(f"{what} a gearing of 0")
    spread = Fraction(plain(coupon.spread())) / Fraction(plain(coupon.gearing()))
    written = plain(float(spread))
    if Fraction(written) != spread:
        raise ValueError(f"{what} a spread that is no decimal for a unit of its gearing")
    return written


def factors(curve: Any, at: Any, dates: Iterable[Any]) -> str:
    """The curve as it is seen on a day, with a row for each date on which something is paid."""
    days = sorted({0} | {date - at for date in dates if date > at})
    rows = [[str(day), rounded(curve.discount(at + day) / curve.discount(at), 9)] for day in days]
    return "".join(lines_of([["offset", "factor"], *rows]))
