"""What the text of a term and its declarations give in numbers: sorts, decimals, nodes, heights,
days. They judge nothing.

A term may be as deep as a text may be, so trees are walked by lists and not by calls.
"""

from __future__ import annotations

from collections.abc import Callable, Iterator
from functools import cached_property
from typing import NamedTuple, TypeVar

from . import trees
from .names import Declarations, NameSet
from .trees import Term

T = TypeVar("T")
TRUTH, NUMBER = "truth value", "number"
NUMERIC = ("+", "-", "*")
LOGIC = ("&", "|")


class Kind(NamedTuple):
    """What an expression is: a truth value, or a number with so many decimals."""

    sort: str
    decimals: int = 0

    def __str__(self) -> str:
        return (
            "a truth value"
            if self.sort == TRUTH
            else f"a number with {self.decimals} decimal{'s' * (self.decimals != 1)}"
        )


def inner_first(term: Term) -> Iterator[Term]:
    """The terms, each behind those in it; what a name is bound to comes before where it is bound.
    """
    order: list[Term] = []
    rest = [term]
    while rest:
        found = rest.pop()
        order.append(found)
        rest.extend(reversed(found.parts) if found.form == "acc" else found.parts)
    return reversed(order)


def folded(term: Term, of: Callable[[Term, list[T]], T]) -> dict[int, T]:
    """What a function gives of each term and of what it gives of the parts, by the term's place."""
    found: dict[int, T] = {}
    for it in inner_first(term):
        found[it.at] = of(it, [found[part.at] for part in it.parts])
    return found


class Measures:
    """The numbers of the terms of a statement."""

    def __init__(self, term: Term, declared: Declarations) -> None:
        self.term = term
        self.declared = declared

    # ---- sorts and decimals

    @cached_property
    def kinds(self) -> dict[int, Kind | None]:
        """What each expression is, or nothing where sorts are mixed."""
        bound: dict[int, Term] = {}
        for it in self.term.nodes():
            if it.form in ("let", "acc"):
                bound[it.arguments[0].at] = it.parts[1 if it.form == "acc" else 0]
        known: dict[int, Kind | None] = {}
        for it in inner_first(self.term):
            if it.sort == trees.EXPRESSION:
                named = bound.get(it.binder)
                known[it.at] = known.get(named.at) if named else self.kind_of(
                    it, [known[part.at] for part in it.parts]
                )
        return known

    def kind_of(self, term: Term, parts: list[Kind | None]) -> Kind | None:
        """The kind of an expression that is no name, from those of its parts."""
        if term.form in (trees.NUMBER, "-"):
            return Kind(NUMBER, len(term.arguments[0].text.partition(".")[2]))
        if term.form in ("true", "false"):
            return Kind(TRUTH)
        if term.form in ("obs", "model"):
            label = self.declared.names(NameSet.LABEL)[term.told("label")[0]]
            return Kind(TRUTH) if label.decimals is None else Kind(NUMBER, label.decimals)
        return None if None in parts else self.kind_of_operation(term, [it for it in parts if it])

    def kind_of_operation(self, term: Term, parts: list[Kind]) -> Kind | None:
        sorts = [it.sort for it in parts]
        wanted = wanted_sorts(term)
        if wanted and sorts != wanted:
            return None
        decimals = max(it.decimals for it in parts)
        operator = "".join(term.told("operator"))
        if term.form == trees.OPERATION:
            if operator == "*":
                return Kind(NUMBER, sum(it.decimals for it in parts))
            return Kind(NUMBER, decimals) if operator in NUMERIC else Kind(TRUTH)
        if term.form in ("if", "acc") and sorts[-1] != sorts[-2]:
            return None
        if term.form == "if":
            return Kind(sorts[-1], max(it.decimals for it in parts[1:]))
        if term.form == "acc":
            return parts[1]
        if term.form in ("widen", "round", "div"):
            return Kind(NUMBER, int(term.told("places")[0]))
        return Kind(TRUTH) if term.form == "not" else Kind(NUMBER, decimals)

    @cached_property
    def decimals(self) -> dict[int, int]:
        """The decimals of each contract or amount: those of a factor count to what is within it."""

        def of(term: Term, parts: list[int]) -> int:
            if term.sort == trees.EXPRESSION:
                kind = self.kinds[term.at]
                return kind.decimals if kind else 0
            if term.form == "scale":
                return sum(parts)
            inner = [it for it, part in zip(parts, term.parts) if part.sort != trees.EXPRESSION]
            return max(inner, default=0)

        return folded(self.term, of)

    # ---- sizes

    @cached_property
    def heights(self) -> dict[int, int]:
        return folded(self.term, lambda term, parts: 1 + max(parts, default=0))

    @cached_property
    def counts(self) -> dict[int, int]:
        """The nodes of each term."""
        return folded(self.term, lambda term, parts: 1 + sum(parts))

    @cached_property
    def reaches(self) -> dict[int, int]:
        """The days by which the latest part of each contract may stand later than it. A `loop` of
        code moves only what it enters once its test is true.
        """

        def of(term: Term, parts: list[int]) -> int:
            if term.form == "loop":
                return max(self.loop_days(term) + parts[1], parts[2])
            return self.days_of(term) + max(parts, default=0)

        return folded(self.term, of)

    @cached_property
    def pasts(self) -> dict[int, int]:
        """How many days before its own each term may read."""

        def of(term: Term, parts: list[int]) -> int:
            if term.form == "obs":
                return max(0, -int(term.told("offset")[0]))
            if term.form == "acc":
                days = int(term.told("length")[0])
                return max(parts[1] + days, parts[0] + max(days - 1, 0))
            return max(parts, default=0)

        return folded(self.term, of)

    @cached_property
    def works(self) -> dict[int, int]:
        """The steps in which each term is evaluated: a test counts once for each day, and the body
        of `acc` too.
        """

        def of(term: Term, parts: list[int]) -> int:
            if term.form == "acc":
                return 1 + parts[1] + int(term.told("length")[0]) * parts[0]
            if term.sort == trees.EXPRESSION:
                return 1 + sum(parts)
            if term.form in ("if", "loop"):
                days = self.days_of(term) if term.form == "if" else self.loop_days(term)
                return (days + 1) * parts[0] + parts[1] + parts[2]
            return sum(parts)

        return folded(self.term, of)

    def loop_days(self, term: Term) -> int:
        """The days of a `loop`, none if its number is below 0."""
        return max(date_of(term, self.declared), 0)

    def days_of(self, term: Term) -> int:
        """The days of an `after` or a `within`, with those of the templates."""
        if term.sort == trees.EXPRESSION:
            return 0
        templates = self.declared.names(NameSet.TEMPLATE)
        return (
            sum(int(it) for it in term.told("days"))
            + sum(templates[it].days or 0 for it in term.told("template"))
        )


def date_of(term: Term, declared: Declarations) -> int:
    """The number of a date of code, with those of its templates."""
    templates = declared.names(NameSet.TEMPLATE)
    return (
        sum(int(it) for it in term.told("date"))
        + sum(templates[it].days or 0 for it in term.told("template"))
    )


def wanted_sorts(term: Term) -> list[str]:
    """The sorts that the parts of an operation have to be of; nothing of a form that takes either.
    """
    operator = "".join(term.told("operator"))
    if operator:
        return [TRUTH, TRUTH] if operator in LOGIC else [NUMBER, NUMBER]
    if term.form == "not":
        return [TRUTH]
    return (
        [NUMBER] * len(term.parts)
        if term.form in ("neg", "min", "max", "widen", "round", "div")
        else []
    )
