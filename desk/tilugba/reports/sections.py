"""The parts of the page of a report: tables, with pictures above them where there is much to
look at.
"""

from __future__ import annotations

from collections.abc import Mapping, Sequence
from dataclasses import dataclass
from decimal import Decimal

from .. import decimals
from ..days import Calendar
from ..exposures.held import Held, History, mantissa
from ..exposures.positive import EACH, Exposing
from ..histories.deals import Book
from ..histories.sums import names
from ..histories.valuing import Worth
from ..pictures.lines import picture
from ..pictures.panel import COLOURS, Panel, Series
from ..program import Refusal
from ..receipts import Receipt
from .facts import Facts
from .html import said, section, table, tag
from .periods import Period, Periods

NOTHING = "–"
DUE = (
    "What each party gets, less what it pays. What was due before {} is apart from what is due from"
    " then on. Payments that depend on fixings which are not known yet are not among them."
)
WAITS = (
    "The first fixing that is missing for each contract. From that day on nothing can be told of"
    " what the contract pays."
)
READS = "The days from {} on which contracts that are not over may read a label, by their text."
WORTH = (
    "What the payer is to pay the receiver from {} on, at the factors of the curve, if each rate"
    " stays as it was last seen. A value below 0 is to be paid the other way."
)
EXPOSED = (
    "What the others would lose if a party failed: the part above 0 of what it is to pay, with the"
    " contracts of each pair netted."
)
NO_EXPOSURES = "Exposures would need the values of all contracts, so there are none."
ACCEPTED = "It is accepted. It pays from {} on, at most {} in all, and nothing from {} on."
REFUSED = "It is refused by the rule {} at node {}, so nothing else is told of it."
MADE = (
    "Made by `{}` at {}, by the desk of the SHA-256 {}. The desk is not proved: it asks the"
    " program, and only adds and compares what the program prints."
)


@dataclass(frozen=True)
class Told:
    """All that the page tells: the book, the day, the contracts, and where there is a curve
    their values.
    """

    title: str
    book: Book
    at: int
    facts: Sequence[Facts]
    worth: Sequence[Worth]
    missing: Sequence[tuple[str, str]]
    has_curve: bool
    receipt: Receipt

    @property
    def calendar(self) -> Calendar:
        return self.book.calendar

    @property
    def day(self) -> str:
        return self.calendar.text(self.at)


def amount(number: Decimal) -> str:
    """An amount with marks between thousands."""
    whole, point, rest = decimals.text(number).partition(".")
    digits = whole.removeprefix("-")
    return f"{'-' * (digits != whole)}{int(digits):,}{point}{rest}"


def overview(told: Told) -> str:
    """What the page is about, in some numbers."""
    rows = {
        "Day of the report": told.calendar.told(told.at),
        "Contracts": str(len(told.facts)),
        "of them refused": str(sum(not it.is_accepted for it in told.facts)),
        "of them over: nothing is left": str(sum(it.left == "zero" for it in told.facts)),
        "of them waiting for a fixing": str(sum(it.waits is not None for it in told.facts)),
        "Parties": ", ".join(told.book.parties),
        "Assets": ", ".join(told.book.assets),
    }
    lines = [
        tag("tr", said("th", name, scope="row"), said("td", text)) for name, text in rows.items()
    ]
    return tag("section", tag("table", tag("tbody", *lines)))


def payments(told: Told) -> str:
    """What was due and what is due, by month and party."""
    flows = [flow for it in told.facts for flow in it.paid]
    periods = Periods(told.calendar, told.at)
    balances = periods.balances(flows)
    parts = [said("p", DUE.format(told.day))]
    for asset in told.book.assets:
        those = {it: of for it, found in balances.items() if (of := of_asset(found, asset))}
        if those:
            parts += payments_of(told, asset, periods, those)
    return section(
        "What was due, and what is due", *parts, *([said("p", "There are none.")] * (not flows))
    )


def of_asset(found: Mapping[tuple[str, str], Decimal], asset: str) -> dict[str, Decimal]:
    """What the parties get in an asset."""
    return {party: number for (party, it), number in found.items() if it == asset}


def payments_of(
    told: Told, asset: str, periods: Periods, balances: Mapping[Period, Mapping[str, Decimal]]
) -> list[str]:
    """The picture and the table of an asset."""
    parties = [it for it in told.book.parties if any(it in those for those in balances.values())]
    drawn = periods.filled(list(balances))
    series = [
        Series(
            party,
            [float(balances.get(it, {}).get(party, 0)) for it in drawn],
            COLOURS[place % len(COLOURS)],
        )
        for place, party in enumerate(parties)
    ]
    panel = Panel(f"By month and party, {asset}", [it.told for it in drawn], series, has_bars=True)
    rows = [
        [it.told, *(cell(those.get(party)) for party in parties)] for it, those in balances.items()
    ]
    shown = tag("div", picture([panel], f"Payments in {asset}"), class_="picture")
    return [shown, table((asset, *parties), rows, len(parties))]


def cell(number: Decimal | None) -> str:
    return NOTHING if number is None else amount(number)


def needs(told: Told) -> str:
    """The first fixing for which each contract waits, and the days on which each label may be
    read.
    """
    waits = sorted(
        (it.waits.day, it.deal.name, it.waits.label) for it in told.facts if it.waits is not None
    )
    parts = [said("p", WAITS)]
    if waits:
        rows = [(told.calendar.told(day), label, name) for day, name, label in waits]
        parts.append(table(("Day", "Label", "Contract"), rows))
    else:
        parts.append(said("p", "No contract waits for a fixing."))
    labels = told.book.labels.numbers() + told.book.labels.flags()
    ahead = [row for label in labels if (row := days_of(told, label))]
    if ahead:
        parts.append(said("p", READS.format(told.day)))
        parts.append(table(("Label", "First day", "Last day", "Contracts"), ahead))
    return section("What will be needed", *parts)


def days_of(told: Told, label: str) -> tuple[str, str, str, str] | None:
    """The first and the last day on which contracts that are not over may read a label."""
    found = [
        (it.deal.name, max(first, told.at), last)
        for it in told.facts
        if it.is_accepted and it.left != "zero"
        for first, last in it.deal.reads.get(label, ())
        if last >= told.at
    ]
    if not found:
        return None
    readers = dict.fromkeys(name for name, _, _ in found)
    first, last = min(it for _, it, _ in found), max(it for _, _, it in found)
    return label, told.calendar.text(first), told.calendar.text(last), ", ".join(readers)


def values(told: Told) -> str:
    """What contracts are worth on the day, and what would be lost if a party failed."""
    if not told.has_curve:
        return ""
    header = ("Contract", "Payer", "Receiver", "Asset", "Value")
    rows = [
        (it.deal.name, *names(told.book, it.pair), amount(Decimal(it.value))) for it in told.worth
    ]
    parts = [said("p", WORTH.format(told.day))]
    if told.missing:
        parts.append(table(("Contract", "Why it has no value"), told.missing))
        parts.append(said("p", NO_EXPOSURES))
    elif told.worth:
        parts += exposures(told)
    parts.append(table(header, rows, 1, "By contract"))
    return section("Values and exposures", *parts)


def exposures(told: Told) -> list[str]:
    """The exposure to each party on the day, with its contracts netted."""
    places = max(decimals.decimals_of(Decimal(it.value)) for it in told.worth)
    held = Held(told.day)
    for it in told.worth:
        held.add(names(told.book, it.pair), [mantissa(it.value, places)])
    history = History([held], places, list(told.book.parties), list(told.book.assets), True)
    rows = [row for row in list(Exposing(history, None, False).rows())[1:] if row[0] != EACH]
    lines = [[row[1], row[2], amount(Decimal(row[3]))] for row in rows if Decimal(row[3])]
    drawn = [panel_of(asset, those) for asset in told.book.assets if (those := above(rows, asset))]
    shown = [tag("div", picture(drawn, "Exposures"), class_="picture")] if drawn else []
    return [said("p", EXPOSED), *shown, table(("Party", "Asset", "Exposure"), lines, 1, "By party")]


def above(rows: Sequence[Sequence[str]], asset: str) -> list[Sequence[str]]:
    """The rows of an asset, if one of them is above 0."""
    those = [row for row in rows if row[2] == asset]
    return those if any(Decimal(row[3]) for row in those) else []


def panel_of(asset: str, rows: Sequence[Sequence[str]]) -> Panel:
    series = Series("exposure", [float(row[3]) for row in rows], COLOURS[0])
    return Panel(f"If a party failed, {asset}", [row[1] for row in rows], [series], has_bars=True)


def contracts(told: Told) -> str:
    """Each contract with its verdict and what is left of it."""
    cards = [
        tag("article", said("h3", it.deal.name), said("p", verdict(told, it)), left(told, it))
        for it in told.facts
    ]
    return section("The contracts", *cards)


def verdict(told: Told, it: Facts) -> str:
    """What `check` says, in a sentence."""
    found = it.verdict
    if isinstance(found, Refusal):
        return REFUSED.format(found.rule, found.node)
    if found.start == "always":
        return "It is accepted, and pays nothing."
    first = told.calendar.text(told.book.start + int(found.start))
    behind = told.calendar.text(told.book.start + found.horizon)
    return ACCEPTED.format(first, amount(Decimal(found.total)), behind)


def left(told: Told, it: Facts) -> str:
    if not it.is_accepted:
        return ""
    if it.fault:
        return said("p", f"What is left of it cannot be told: {it.fault}.")
    if it.left == "zero":
        return said("p", f"Nothing is left of it on {told.day}.")
    return said("p", f"Left on {told.day}:") + tag("pre", said("code", it.left))


def receipt(told: Told) -> str:
    """What the page was made of."""
    it = told.receipt
    files = [
        (
            file.name or "",
            NOTHING if file.size is None else f"{file.size:,}",
            file.sha256 or NOTHING,
        )
        for file in [*it.files, it.program]
    ]
    return section(
        "Receipt",
        said("p", MADE.format(it.told, it.time, it.desk)),
        table(("File", "Bytes", "SHA-256"), files),
        tag("pre", said("code", it.line.rstrip("\n"))),
    )
