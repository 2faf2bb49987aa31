"""What holds of the terms of a contract whatever is observed: names, the days of reads, whether
something is transferred.
"""

from __future__ import annotations

from dataclasses import dataclass
from functools import cached_property

from ..texts import trees
from ..texts.measures import Measures, folded
from ..texts.names import Declarations
from ..texts.trees import Term

NEVER = 10**9
Pattern = frozenset[tuple[str, int]]


def operator_of(term: Term) -> str:
    """The operator of an operation, or nothing."""
    return next((it.text for it in term.arguments if it.role == "operator"), "")


def is_choice(term: Term) -> bool:
    """Whether an expression reads one of its parts only if another one comes to something."""
    return term.sort == trees.EXPRESSION and (term.form == "if" or operator_of(term) in ("&", "|"))


def binder_of(term: Term) -> int:
    """The place of the name that a `let` or an `acc` binds."""
    return term.arguments[0].at


@dataclass
class Facts:
    """The facts of the terms of a contract, each by the term's place."""

    term: Term
    declared: Declarations

    def __post_init__(self) -> None:
        self.measures = Measures(self.term, self.declared)
        self.terms = {it.at: it for it in self.term.nodes()}
        self.days = {at: self.days_of(it) for at, it in self.terms.items()}
        self.bound_names = {
            it.arguments[0].at: it.arguments[0].text
            for it in self.terms.values()
            if it.form in ("let", "acc")
        }
        self.patterns: dict[int, Pattern] = {}

    def days_of(self, term: Term) -> int:
        """The days of an `after`, a `within` or an `acc`, and of an `obs` how many days later it
        reads.
        """
        if term.sort == trees.CONTRACT:
            return self.measures.days_of(term)
        return int(next((it.text for it in term.arguments if it.role in ("offset", "length")), 0))

    @cached_property
    def free(self) -> dict[int, frozenset[int]]:
        """The places of the names that a term uses and that are bound round it."""

        def of(term: Term, parts: list[frozenset[int]]) -> frozenset[int]:
            if term.form in ("let", "acc"):
                inner = 1 if term.form == "let" else 0
                parts = [
                    part - {binder_of(term)} if number == inner else part
                    for number, part in enumerate(parts)
                ]
            return frozenset({term.binder} if term.form == trees.NAME else ()).union(*parts)

        return folded(self.term, of)

    @cached_property
    def earliest(self) -> dict[int, int]:
        """How many days after its own a term reads at the earliest, by the reads that are written
        in it.
        """

        def of(term: Term, parts: list[int]) -> int:
            days = self.days[term.at]
            if term.form == "obs":
                return days
            if term.form == "acc":
                return min(parts[1] - days, parts[0] - max(days - 1, 0))
            if term.form == "after":
                return parts[0] + days
            if term.form == "if" and term.sort == trees.CONTRACT:
                return min(parts[0], parts[1], parts[2] + days)
            return min(parts, default=NEVER)

        return folded(self.term, of)

    @cached_property
    def latest(self) -> dict[int, int]:
        """How many days after its own an expression reads at the latest, by the reads that are
        written in it.
        """

        def of(term: Term, parts: list[int]) -> int:
            if term.form == "obs":
                return self.days[term.at]
            if term.form == "acc":
                return max(parts[0], parts[1] - self.days[term.at])
            return max(parts, default=-NEVER)

        return folded(self.term, of)

    @cached_property
    def pays(self) -> dict[int, bool | None]:
        """Whether a contract transfers something on each of its ways, on none, or on some."""

        def of(term: Term, parts: list[bool | None]) -> bool | None:
            if term.form == "pay":
                return term.told("payer") != term.told("receiver")
            inner = [it for it, part in zip(parts, term.parts) if part.sort == trees.CONTRACT]
            if term.form == "both":
                return True if True in inner else either(inner)
            return either(inner) if inner else False

        return folded(self.term, of)

    @cached_property
    def plain(self) -> frozenset[int]:
        """The expressions that read the same places whatever is observed, and use no name that is
        bound round them.
        """

        def of(term: Term, parts: list[bool]) -> bool:
            return all(parts) and not is_choice(term)

        without_choices = folded(self.term, of)
        return frozenset(at for at, is_so in without_choices.items() if is_so and not self.free[at])

    def pattern(self, term: Term) -> Pattern:
        """The labels that a plain expression reads, each with how many days after the expression's
        own.
        """
        if term.at not in self.patterns:
            self.patterns[term.at] = self.new_pattern(term)
        return self.patterns[term.at]

    def new_pattern(self, term: Term) -> Pattern:
        days = self.days[term.at]
        if term.form == "obs":
            return frozenset({(term.told("label")[0], days)})
        if term.form != "acc":
            return frozenset().union(*(self.pattern(it) for it in term.parts))
        body, first = self.pattern(term.parts[0]), self.pattern(term.parts[1])
        on_days = {(label, at - back) for back in range(days) for label, at in body}
        return frozenset(on_days | {(label, at - days) for label, at in first})


def either(parts: list[bool | None]) -> bool | None:
    """What two ways come to together: what both say, or else it depends."""
    return parts[0] if all(it == parts[0] for it in parts) else None
