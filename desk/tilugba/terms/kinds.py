"""The kinds of trades: what each is checked by, and what it pays."""

from __future__ import annotations

from collections.abc import Callable, Iterable
from dataclasses import dataclass

from ..calendars import Mover
from ..days import date_text, ordinal_of
from ..rows.fields import Fields
from ..rows.payments import COUPON, PLAIN, Payment, Payments
from . import loans, options, swaps
from .deals import Deal, Kind, Rows, Setting
from .trades import Trade


@dataclass(frozen=True)
class Form:
    """A kind of trade, and how its rows are made."""

    kind: Kind
    rows: Callable[[Deal], Rows] | None

    def of(self, trade: Trade, setting: Setting) -> Rows:
        if self.rows is None:
            return swaps.cap_or_floor(trade, setting)
        return self.rows(Deal.of(trade, setting, self.kind))


FORMS = {
    "PAM": Form(loans.PAM, loans.bullet),
    "LAM": Form(loans.LAM, loans.in_parts),
    "ANN": Form(loans.ANN, loans.with_equal_payments),
    "SWPPV": Form(swaps.SWPPV, swaps.swap),
    "CAPFL": Form(swaps.CAPFL, None),
    "FXOUT": Form(options.FXOUT, options.exchange_of_currencies),
    "OPTNS": Form(options.OPTNS, options.option),
}


def rows_of(trade: Trade, setting: Setting) -> list[Fields]:
    """The rows of a trade. One that cannot be expressed is refused by its field.

    A period that is moved to no days at all has no interest, and no row.
    """
    kind = trade.fields.one_of("contractType", list(FORMS))
    form = FORMS[kind]
    form.kind.check(trade, kind)
    return [row for row in form.of(trade, setting) if row.texts.get("numerator") != "0"]


@dataclass(frozen=True)
class Kept:
    """The rows of a trade from the first day of the portfolio on, and how many are before it."""

    trade: Trade
    rows: list[Fields]
    before: int

    def told(self, first: str) -> str:
        name = self.trade.fields.texts["contractID"]
        paid = "1 payment" if self.before == 1 else f"{self.before} payments"
        return f"{name}: {paid} before {first} left out"


def kept_rows(trade: Trade, setting: Setting, mover: Mover) -> Kept:
    """The rows that are not past on the first day."""
    rows = rows_of(trade, setting)
    start = (setting.declared.origin or 0) + setting.declared.start
    later = [it for it in rows if mover.moved(ordinal_of(it.texts["date"]) or 0) >= start]
    if not later:
        raise trade.fields.fault("contractID", f"nothing is paid from {date_text(start)} on")
    return Kept(trade, later, len(rows) - len(later))


def payments_of(kept: Iterable[Kept], payments: Payments) -> list[Payment]:
    """What the rows pay."""
    rows = [row for it in kept for row in it.rows]
    return [payments.payment_of(row, number) for number, row in enumerate(rows, 2)]


def table_of(kept: Iterable[Kept]) -> list[list[str]]:
    """The rows as a table of the subcommand `rows`."""
    header = [*PLAIN, *COUPON]
    return [header, *([row.texts.get(it, "") for it in header] for one in kept for row in one.rows)]
