"""What is paid for a trade when it is bought."""

from __future__ import annotations

from .deals import Deal, Rows

PREMIUM = ("purchaseDate", "priceAtPurchaseDate")


def premium(deal: Deal) -> Rows:
    """The price, which the creator pays if that is who buys."""
    fields = deal.fields
    day, price = PREMIUM
    if fields.has(day) != fields.has(price):
        missing = price if fields.has(day) else day
        raise fields.fault(missing, f"it is missing: {day} and {price} go together")
    if fields.has(price):
        yield deal.amount(deal.date(day), deal.decimal(price), creator_gets=False, name=price)
