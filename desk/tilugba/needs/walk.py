"""Walks through the places that a contract may read, as what is fixed decides.

The program's own order: a name has the reads of what it is bound to; of `&`, `|` and `if` the
choice decides which part is read; a factor is read only if something is transferred in its body. A
choice whose places are all fixed is a question to the program. Of any other both ways are followed,
and what is behind it is not sure. (What is read, and when, is `reads_of_contract` of
docs/MODEL.md.)
"""

from __future__ import annotations

from collections.abc import Iterator
from dataclasses import dataclass, field
from typing import NamedTuple

from ..texts import trees
from ..texts.trees import Term
from .facts import Facts, binder_of, is_choice, operator_of

Place = tuple[str, int]
# What names stand for, each by the place where it is bound: the numbers of what is bound, in the
# order of the places.
Names = tuple[tuple[int, int], ...]


class Bound(NamedTuple):
    """What a name stands for: the expression of a `let` on a day, or of an `acc` that begins on a
    day what it is after some steps.
    """

    at: int
    day: int
    names: Names
    steps: int | None


class Question(NamedTuple):
    """A choice on a day: is the truth value at this place true?"""

    at: int
    day: int
    names: Names


class Waits:
    """The answer of a question that is not answered yet."""


WAITS = Waits()
Choice = bool | None | Waits


@dataclass
class Reads:
    """Places, each with whether it is read on every way, and the accumulators whose value so far is
    used. A question may be open.
    """

    places: dict[Place, bool] = field(default_factory=dict)
    sums: set[int] = field(default_factory=set)
    waits: bool = False

    def add(self, place: Place, is_sure: bool) -> None:
        self.places[place] = is_sure or self.places.get(place, False)


class Walk:
    """The walk through a contract: `found` is what it may read, once `questions` is empty. Days are
    those of the portfolio.
    """

    def __init__(self, facts: Facts, start: int, until: int, fixed: frozenset[Place]) -> None:
        self.facts, self.start, self.until, self.fixed = facts, start, until, fixed
        self.bounds: list[Bound] = []
        self.numbers: dict[Bound, int] = {}
        self.answers: dict[Question, bool | None] = {}
        self.again()

    def again(self) -> None:
        """Walks with the answers that are known by now."""
        self.found = Reads()
        self.questions: dict[Question, None] = {}
        self.walked: dict[Question, bool] = {}
        self.chosen: dict[Question, Choice] = {}
        self.paying: dict[Question, bool | None] = {}
        self.steps_fixed: dict[int, Choice] = {}
        self.name_reads: dict[int, Reads] = {}
        self.contract(self.facts.term, self.start, (), True)

    # ---- names

    def within(self, term: Term, names: Names) -> Names:
        """The names that a term uses."""
        free = self.facts.free[term.at]
        return tuple(it for it in names if it[0] in free) if names else names

    def bind(self, names: Names, binder: int, bound: Bound) -> Names:
        number = self.numbers.setdefault(bound, len(self.bounds))
        if number == len(self.bounds):
            self.bounds.append(bound)
        return tuple(sorted([*(it for it in names if it[0] != binder), (binder, number)]))

    # ---- contracts

    def contract(self, term: Term, day: int, names: Names, is_sure: bool) -> None:
        """What a contract that begins on this day may read."""
        facts = self.facts
        if not facts.free[term.at] and day + facts.earliest[term.at] > self.until:
            return
        names = self.within(term, names)
        key = Question(term.at, day, names)
        if self.walked.get(key) in (True, is_sure):
            return
        self.walked[key] = is_sure
        if term.form == "if":
            self.loop(term, day, names, is_sure)
        elif term.form == "let":
            bound = Bound(term.parts[0].at, day, self.within(term.parts[0], names), None)
            self.contract(term.parts[1], day, self.bind(names, binder_of(term), bound), is_sure)
        elif term.form == "scale":
            self.contract(term.parts[1], day, names, is_sure)
            pays = self.pays(term.parts[1], day, names)
            if pays is not False:
                self.read(term.parts[0], day, names, is_sure and pays is True, self.found)
        else:
            days = facts.days[term.at]
            for part in term.parts:
                self.contract(part, day + days, names, is_sure)

    def loop(self, term: Term, day: int, names: Names, is_sure: bool) -> None:
        for part, on, is_certain in self.ways(term, day, names):
            if part.sort == trees.EXPRESSION:
                self.read(part, on, names, is_sure and is_certain, self.found)
            else:
                self.contract(part, on, names, is_sure and is_certain)

    def ways(self, term: Term, day: int, names: Names) -> Iterator[tuple[Term, int, bool]]:
        """The test of an `if .. within` on its days and the branches that may be entered, each with
        its day and whether it is sure.
        """
        test, hit, miss = term.parts
        is_certain, waits = True, False
        last = day + self.facts.days[term.at]
        for on in range(day, last + 1):
            yield test, on, is_certain
            chosen = self.choice(test, on, names)
            waits = waits or chosen is WAITS
            if chosen is True:
                if not waits:
                    yield hit, on, is_certain
                return
            if chosen is None and not waits:
                is_certain = False
                yield hit, on, False
        if not waits:
            yield miss, last, is_certain

    def pays(self, term: Term, day: int, names: Names) -> bool | None:
        """Whether something is transferred in a contract that begins on this day, on each of its
        ways, on none, or on some.
        """
        always = self.facts.pays[term.at]
        if always is not None:
            return always
        key = Question(term.at, day, self.within(term, names))
        if key not in self.paying:
            self.paying[key] = self.new_pays(term, day, key.names)
        return self.paying[key]

    def new_pays(self, term: Term, day: int, names: Names) -> bool | None:
        if term.form == "both":
            one = self.pays(term.parts[0], day, names)
            other = one or self.pays(term.parts[1], day, names)
            return True if other else None if one is None else other
        if term.form == "let":
            bound = Bound(term.parts[0].at, day, self.within(term.parts[0], names), None)
            return self.pays(term.parts[1], day, self.bind(names, binder_of(term), bound))
        if term.form != "if":
            return self.pays(term.parts[-1], day + self.facts.days[term.at], names)
        seen: set[bool | None] = set()
        for part, on, _ in self.ways(term, day, names):
            if part.sort == trees.CONTRACT:
                seen.add(self.pays(part, on, names))
                if len(seen) > 1 or None in seen:
                    return None
        return seen.pop() if seen else None

    # ---- expressions

    def read(self, term: Term, day: int, names: Names, is_sure: bool, reads: Reads) -> None:
        """What an expression reads on a day."""
        if term.at in self.facts.plain:
            for label, later in self.facts.pattern(term):
                reads.add((label, day + later), is_sure)
        elif term.form == trees.NAME:
            self.read_name(dict(names)[term.binder], is_sure, reads)
        elif is_choice(term):
            self.read_choice(term, day, names, is_sure, reads)
        elif term.form == "acc":
            self.read_sum(term, day, names, is_sure, reads)
        elif term.form == "obs":
            reads.add((term.told("label")[0], day + self.facts.days[term.at]), is_sure)
        else:
            for part in term.parts:
                self.read(part, day, names, is_sure, reads)

    def read_name(self, number: int, is_sure: bool, reads: Reads) -> None:
        """A name has the reads of its `let`. What an accumulator has so far was read by the
        accumulator.
        """
        bound = self.bounds[number]
        if bound.steps is not None:
            reads.sums.add(number)
            return
        if number not in self.name_reads:
            self.name_reads[number] = Reads()
            self.read(
                self.facts.terms[bound.at], bound.day, bound.names, True, self.name_reads[number]
            )
        own = self.name_reads[number]
        reads.waits = reads.waits or own.waits
        for place, is_certain in own.places.items():
            reads.add(place, is_sure and is_certain)

    def read_choice(self, term: Term, day: int, names: Names, is_sure: bool, reads: Reads) -> None:
        first, *rest = term.parts
        self.read(first, day, names, is_sure, reads)
        chosen = self.choice(first, day, names)
        if isinstance(chosen, Waits):
            reads.waits = True
            return
        if term.form == "if":
            ways = [(True, rest[0]), (False, rest[1])]
        else:
            ways = [(operator_of(term) == "&", rest[0])]
        for wanted, part in ways:
            if chosen in (None, wanted):
                self.read(part, day, names, is_sure and chosen is not None, reads)

    def read_sum(self, term: Term, day: int, names: Names, is_sure: bool, reads: Reads) -> None:
        """An accumulator reads its start on its first day, and its body on each day since."""
        body, first = term.parts
        length = self.facts.days[term.at]
        begins = day - length
        self.read(first, begins, names, is_sure, reads)
        for steps in range(length):
            self.read(
                body,
                begins + steps + 1,
                self.after_steps(term, begins, names, steps),
                is_sure,
                reads,
            )

    def after_steps(self, term: Term, begins: int, names: Names, steps: int) -> Names:
        """The names in the body of an accumulator, whose own name has what it comes to in some
        steps.
        """
        binder = binder_of(term)
        if binder not in self.facts.free[term.parts[0].at]:
            return names
        return self.bind(names, binder, Bound(term.at, begins, self.within(term, names), steps))

    # ---- choices

    def choice(self, term: Term, day: int, names: Names) -> Choice:
        """What a choice comes to: true or false as the program says, nothing if some place is not
        fixed, or it waits for an answer.
        """
        key = Question(term.at, day, self.within(term, names))
        if key in self.answers:
            return self.answers[key]
        if key not in self.chosen:
            self.chosen[key] = self.new_choice(term, key)
        return self.chosen[key]

    def new_choice(self, term: Term, key: Question) -> Choice:
        is_fixed = self.is_fixed(term, key.day, key.names)
        if is_fixed is True:
            self.questions[key] = None
            return WAITS
        return WAITS if is_fixed is WAITS else None

    def is_fixed(self, term: Term, day: int, names: Names) -> Choice:
        """Whether all is fixed that an expression depends on; it waits if that depends on an
        answer.
        """
        if term.at in self.facts.plain:
            return all(
                (label, day + later) in self.fixed for label, later in self.facts.pattern(term)
            )
        reads = Reads()
        self.read(term, day, names, True, reads)
        if not self.fixed.issuperset(reads.places):
            return False
        if reads.waits:
            return WAITS
        return next((it for it in map(self.is_sum_fixed, reads.sums) if it is not True), True)

    def is_sum_fixed(self, number: int) -> Choice:
        """Whether all is fixed that an accumulator depends on up to some step. Steps before it are
        looked at first, so none is deep.
        """
        bound = self.bounds[number]
        term = self.facts.terms[bound.at]
        binder = binder_of(term)
        numbers = [number]
        while numbers[-1] not in self.steps_fixed and (steps := self.bounds[numbers[-1]].steps):
            numbers.append(dict(self.after_steps(term, bound.day, bound.names, steps - 1))[binder])
        so_far: Choice = True
        for own in reversed(numbers):
            if own not in self.steps_fixed:
                self.steps_fixed[own] = (
                    self.is_step_fixed(term, self.bounds[own]) if so_far is True else so_far
                )
            so_far = self.steps_fixed[own]
        return so_far

    def is_step_fixed(self, term: Term, bound: Bound) -> Choice:
        """Whether all is fixed that the last step of an accumulator reads, or its start."""
        body, first = term.parts
        if not bound.steps:
            return self.is_fixed(first, bound.day, bound.names)
        names = self.after_steps(term, bound.day, bound.names, bound.steps - 1)
        return self.is_fixed(body, bound.day + bound.steps, names)
