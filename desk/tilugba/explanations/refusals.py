"""A contract, or code, that is not accepted: the node, the rule in words, and the numbers that the
text and the limits give.
"""

from __future__ import annotations

from collections.abc import Callable, Iterator, Mapping
from types import MappingProxyType
from typing import NamedTuple

from ..program import Refusal
from ..texts import trees
from ..texts.grammar import CODE, SCHEDULES
from ..texts.measures import Kind, Measures, date_of, wanted_sorts
from ..texts.names import Declarations, Declared, NameSet
from ..texts.offers import number_told
from ..texts.reading import Reading
from ..texts.trees import Term
from .notes import Note, counted, listed
from .text_faults import shortened

GREATEST_SCALE = 27
NONE_SET: Mapping[str, int] = MappingProxyType({})
LIMITS = {
    "height": 200,
    "nodes": 100_000,
    "days": 100_000,
    "reach": 100_000,
    "past": 1_000_000,
    "steps": 10_000_000,
}
# Code has others of its own, and no reach and no past: its dates are limited, each by itself.
LIMITS_OF_CODE = {
    "height": 400, "nodes": 200_000, "days": 100_000, "reach": 100_000, "steps": 10_000_000
}
GREATEST_DATE, GREATEST_LOOP = 2_000_000, 100_000
RULES_OF_CODE = {
    "scale": "what is paid has no more decimals than amounts, and no number has more than 27",
    "size": (
        "code has limits of nodes, height, days, dates and steps, at the numbers of its templates"
    ),
    "bound": (
        "the bounds of what is observed show that no number grows too great, that no divisor is 0, "
        "and that payments stay small"
    ),
}
RULES = {
    "sort": "numbers and truth values stand where they are asked for",
    "time": "nothing is paid by what is not known yet on the day of the payment",
    "scale": (
        "a contract pays with no more decimals than amounts and than each asset has, and no number "
        "has more than 27"
    ),
    "size": "a contract has limits of nodes, height, days and steps",
    "bound": (
        "the bounds of what is observed show that no number grows too great, that no divisor is 0, "
        "and that payments stay small"
    ),
}
PLANS = {
    "scale": (
        "a size or the cover has more decimals than amounts, or the label and the notional have "
        "more than 27 together"
    ),
    "size": "the days before a payment and the day of the last payment come to more than 1,000,000",
    "bound": "the amounts are too great",
}


class Node(NamedTuple):
    """The node that a refusal names, with its bytes in the text."""

    reading: Reading
    measures: Measures
    base: int
    term: Term

    def written(self, term: Term | None = None) -> str:
        it = term or self.term
        text = self.reading.source.data[self.base + it.at : self.base + it.end].decode(
            "utf-8", "replace"
        )
        return shortened(" ".join(text.split()))


def note_of(
    file: str, reading: Reading, refusal: Refusal, settings: Mapping[str, int] = NONE_SET
) -> Note:
    """The explanation of a refusal, of code at the numbers that the settings give its templates."""
    title = f"{refusal.name} is refused by the rule {refusal.rule}"
    number = reading.definition(refusal.name)
    if reading.grammar is SCHEDULES or number is None:
        return plan_note(file, reading, title, number, refusal)
    base, term = reading.segments[number].at, reading.read(number).statement.term
    found = (
        next((it for at, it in enumerate(term.nodes()) if at == refusal.node), None)
        if term
        else None
    )
    if term is None or found is None:
        return Note(file, title)
    node = Node(reading, Measures(term, at_setting(reading.declared, settings)), base, found)
    rules = RULES | RULES_OF_CODE if reading.grammar is CODE else RULES
    lines = [
        f"node {refusal.node}: {node.written()}",
        f"the rule: {rules.get(refusal.rule, refusal.rule)}",
    ]
    tell = TELLERS.get(refusal.rule)
    lines += tell(node) if tell else []
    return Note(file, title, reading.source, reading.source.place(base + found.at), tuple(lines))


def at_setting(declared: Declarations, settings: Mapping[str, int]) -> Declarations:
    """The declarations, with these numbers of templates."""
    if not settings:
        return declared
    known = declared.names(NameSet.TEMPLATE).values()
    templates = {it.name: Declared(it.name, it.at, settings.get(it.name, it.days)) for it in known}
    return declared.with_names(NameSet.TEMPLATE, templates)


def plan_note(
    file: str, reading: Reading, title: str, number: int | None, refusal: Refusal
) -> Note:
    """Of a plan the node is one of a contract that is not printed."""
    if number is None:
        return Note(file, title)
    declared = reading.read(number).statement.declared[0]
    place = reading.source.place(reading.segments[number].at + declared.at)
    why = PLANS.get(refusal.rule, RULES.get(refusal.rule, refusal.rule))
    return Note(
        file, title, reading.source, place, (f"the contract of this plan would be refused: {why}",)
    )


# ---- the rules


def sort_lines(node: Node) -> Iterator[str]:
    """What the parts are, and what is asked for."""
    kinds = node.measures.kinds
    wanted = (
        {"scale": ["number"], "within": ["truth value"]}.get(node.term.form)
        or wanted_sorts(node.term)
    )
    if node.term.sort != trees.EXPRESSION:
        wanted = ["truth value"] if node.term.form in ("if", "loop") else ["number"]
    elif node.term.form == "if":
        wanted = ["truth value"]
    for part, sort in zip(node.term.parts, wanted):
        kind = kinds.get(part.at)
        if kind and kind.sort != sort:
            yield (
                f"{node.written(part)} is {kind_told(kind)}{because(node, part)}; a {sort} is "
                "asked for"
            )
    if node.term.form in ("if", "acc") and node.term.sort == trees.EXPRESSION:
        told = [
            f"{node.written(part)} is {kind_told(kinds[part.at])}"
            for part in node.term.parts[-2:]
            if kinds.get(part.at)
        ]
        yield f"both have to be of one sort: {listed(told)}"


def kind_told(kind: Kind | None) -> str:
    return f"a {kind.sort}" if kind else "neither"


def because(node: Node, part: Term) -> str:
    if part.form not in ("obs", "model"):
        return ""
    label = node.reading.declared.names(NameSet.LABEL)[part.told("label")[0]]
    return f", since {label.name} is {'a flag' if label.is_flag else 'declared by num'}"


def time_lines(node: Node) -> Iterator[str]:
    """Which rates are read after the day of the payment."""
    factors = [it for it in node.term.nodes() if it.sort == trees.EXPRESSION]
    ahead = [it for it in factors if it.form == "obs" and int(it.told("offset")[0]) > 0]
    for read in ahead:
        label, days = read.told("label")[0], int(read.told("offset")[0])
        yield (
            f"{node.written(read)} reads {label} {counted(days, 'day')} after the day on which it "
            "stands"
        )
    names = dict.fromkeys(it.told("variable")[0] for it in factors if it.form == trees.NAME)
    if names:
        yield (
            f"what {listed(list(names))} stands for is known only later than this payment: pay "
            "later, by `after`, or bind what is known"
        )
    elif ahead:
        days = max(int(it.told("offset")[0]) for it in ahead)
        yield (
            f"pay when it is known: after({days}, ..) with obs(.., 0); or bind it by `let` and pay "
            f"{counted(days, 'day')} later"
        )


def scale_lines(node: Node) -> Iterator[str]:
    """The decimals of the parts, and those that may be."""
    measures, term, declared = node.measures, node.term, node.reading.declared
    if term.sort == trees.EXPRESSION:
        yield from scale_of_expression(node)
        return
    factors = [it for it in term.nodes() if it.form == "scale" and it.sort != trees.EXPRESSION]
    assets = dict.fromkeys(
        it.told("asset")[0] for it in term.nodes() if it.form == "pay" and it.sort == trees.CONTRACT
    )
    known = {
        asset: decimals_of(declared.names(NameSet.ASSET)[asset], declared.amounts)
        for asset in assets
    }
    allowed = ", ".join(
        [f"amounts have {declared.amounts}", *(f"{asset} has {it}" for asset, it in known.items())]
    )
    told = [
        f"{node.written(it.parts[0])} has {counted(measures.decimals[it.parts[0].at], 'decimal')}"
        for it in factors[:5]
    ]
    if len(told) == 1:
        yield f"{told[0]}; {allowed}"
    else:
        yield from told
        yield f"together that is {counted(measures.decimals[term.at], 'decimal')}; {allowed}"
    yield (
        f"round what is paid: scale(round(half_even, {min([declared.amounts, *known.values()])}, "
        "..), ..)"
    )


def decimals_of(asset: Declared, amounts: int) -> int:
    return amounts if asset.decimals is None else asset.decimals


def scale_of_expression(node: Node) -> Iterator[str]:
    measures, term = node.measures, node.term
    for part in term.parts:
        kind = measures.kinds.get(part.at)
        if kind:
            yield f"{node.written(part)} is {kind}"
    kind = measures.kinds.get(term.at)
    if kind and kind.decimals > GREATEST_SCALE:
        yield (
            f"together that is {kind.decimals} decimals, and the limit is {GREATEST_SCALE}: round "
            "the parts first"
        )
    elif term.form == "widen":
        yield (
            f"`widen` goes to {term.told('places')[0]} decimals, which is fewer: `round` takes "
            "decimals away"
        )
    elif term.form == "acc":
        yield (
            "the body has more decimals than the first value: write the first value with as many, "
            "or round the body"
        )


def size_lines(node: Node) -> Iterator[str]:
    """Which of the limits is passed."""
    measures, at = node.measures, node.term.at
    is_code = node.reading.grammar is CODE
    reach, moves = measures.reaches[at], "`loop`" if is_code else "`after` and `within`"
    days = (
        int(node.term.told("length")[0]) if node.term.form == "acc" else measures.days_of(node.term)
    )
    found = [
        ("height", measures.heights[at], "is the height, the terms within each other"),
        ("nodes", measures.counts[at], "nodes"),
        ("days", days, "days in one `after`, `within` or `acc`"),
        ("reach", reach, f"days of {moves} added up along a path"),
        ("past", reach + measures.pasts[at], "days of reach and of looking back together"),
        (
            "steps",
            measures.works[at],
            "steps to evaluate: a test counts for each day on which it may be tried",
        ),
    ]
    limits = LIMITS_OF_CODE if is_code else LIMITS
    for limit, number, what in found:
        if limit in limits and number > limits[limit]:
            yield f"{number:,} {what}; the limit is {limits[limit]:,}"
    if is_code:
        yield from date_lines(node)


def date_lines(node: Node) -> Iterator[str]:
    """Whether the date of a part of code is out of range, with what its templates add."""
    term = node.term
    if term.told("date"):
        low, most = (0, GREATEST_LOOP) if term.form == "loop" else (-GREATEST_DATE, GREATEST_DATE)
        date = date_of(term, node.measures.declared)
        if not low <= date <= most:
            yield f"the date of `{term.form}` is {date:,}; it is from {low:,} to {most:,}"


def bound_lines(node: Node) -> Iterator[str]:
    """The bounds of the labels that the node reads, and the divisor."""
    labels = node.reading.declared.names(NameSet.LABEL)
    read = dict.fromkeys(
        it.told("label")[0] for it in node.term.nodes() if it.form in ("obs", "model")
    )
    for name in read:
        label = labels[name]
        if label.decimals is not None and label.low is not None and label.high is not None:
            yield (
                f"{name} is from {number_told(label.low, label.decimals)} to "
                f"{number_told(label.high, label.decimals)}"
            )
    if node.term.form == "div":
        divisor = node.written(node.term.parts[1])
        yield f"the divisor {divisor} may be 0 by these bounds, or the quotient too great"
        yield f"narrow the bounds, or divide by max({divisor}, ..)"
    elif node.term.sort == trees.AMOUNT:
        yield (
            "code is worth at most 10^37, counted in units of amounts with 9 decimals more: narrow "
            "the bounds, or round earlier"
        )
    elif node.term.sort != trees.EXPRESSION:
        yield (
            "a contract pays at most 10^27 and no number is above 10^37, counted in the last "
            "decimal: narrow the bounds, or round earlier"
        )
    else:
        yield (
            "no number is above 10^37, counted in its last decimal: narrow the bounds, or round "
            "the parts"
        )


TELLERS: dict[str, Callable[[Node], Iterator[str]]] = {
    "sort": sort_lines,
    "time": time_lines,
    "scale": scale_lines,
    "size": size_lines,
    "bound": bound_lines,
}
