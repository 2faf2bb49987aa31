"""Puts choices to the program: one book of contracts that pay if the choice is true, each with what
its names are bound to round it.

Each expression is written as it is on the portfolio's start, so an observable is read as many days
later as the expression stands after it. What is not known before a later day waits for it. So no
probe is deeper, longer or farther ahead than the contract that it is of.
"""

from __future__ import annotations

from collections.abc import Iterable, Iterator, Sequence
from dataclasses import dataclass

from ..days import date_text
from ..program import Program, Status, Stop
from ..texts import trees
from ..texts.names import Declarations, NameSet
from ..texts.offers import number_told
from ..texts.rewriting import Edit, rewritten
from ..texts.trees import Term
from .walk import Bound, Question, Walk

# The name of what is asked, and how many bytes of probes make a book.
ASKED, MOST_BYTES = "probe", 4_000_000
# The parties and the asset of such books.
PAYER, RECEIVER, ASSET = "P", "Q", "A"
PAYS = f"pay({ASSET}, {PAYER}, {RECEIVER}) else zero"


@dataclass(frozen=True)
class Probe:
    """A question of a walk, and the contract that asks it."""

    walk: Walk
    question: Question
    text: str


def probe_of(walk: Walk, question: Question, text: str) -> Probe:
    """The contract of a question, from the text in which the contract's places are."""
    facts, chain = walk.facts, dict(sorted(bindings(walk, question)))
    term = facts.terms[question.at]
    days = [question.day - walk.start + facts.latest[term.at]]
    lets = ""
    for binder, bound in chain.items():
        own = facts.terms[bound.at]
        on = bound.day + (bound.steps or 0) - walk.start
        days.append(
            on
            + (
                max(facts.latest[it.at] for it in own.parts)
                if bound.steps is not None
                else facts.latest[own.at]
            )
        )
        lets += f"let {facts.bound_names[binder]} = {written(walk, own, on, text, bound.steps)} in "
    asked = written(walk, term, question.day - walk.start, text)
    if (known := max(days)) > 0:
        if (
            term.form != trees.NAME
        ):  # a name needs no other one, and the probe is no deeper than the contract
            lets, asked = f"{lets}let {ASKED} = {asked} in ", ASKED
        return Probe(walk, question, f"{lets}after({known}, if {asked} within 0 then {PAYS})")
    return Probe(walk, question, f"{lets}if {asked} within 0 then {PAYS}")


def bindings(walk: Walk, question: Question) -> Iterable[tuple[int, Bound]]:
    """What the names of a question are bound to, and the names in that, each by its place."""
    rest, seen = [*question.names], set()
    while rest:
        binder, number = rest.pop()
        if binder not in seen:
            seen.add(binder)
            yield binder, walk.bounds[number]
            rest += walk.bounds[number].names


def written(walk: Walk, term: Term, later: int, text: str, steps: int | None = None) -> str:
    """The text of an expression that stands so many days after the start; of an accumulator with so
    many steps.
    """
    edits = []
    for it in term.nodes():
        if it.form == "obs":
            offset = next(arg for arg in it.arguments if arg.role == "offset")
            edits.append(Edit(offset.at, it.end - 1, str(int(offset.text) + later)))
        if it is term and steps is not None:
            length = next(arg for arg in it.arguments if arg.role == "length")
            edits.append(Edit(length.at, length.at + len(length.text), str(steps)))
    return rewritten(text, edits, term.at, term.end)


def head_of(declared: Declarations) -> str:
    """The declarations of a book of probes: the labels of the portfolio, and parties and an asset
    of its own.
    """
    lines = ["portfolio 1;", "amounts 0;"]
    if declared.origin is not None:
        lines.append(f"origin {date_text(declared.origin)};")
    lines += [f"start {declared.start};", f"party {PAYER}, {RECEIVER};", f"asset {ASSET};"]
    for label in declared.names(NameSet.LABEL).values():
        if label.decimals is None or label.low is None or label.high is None:
            lines.append(f"flag {label.name};")
        else:
            low, high = (number_told(it, label.decimals) for it in (label.low, label.high))
            lines.append(f"num {label.name} : {label.decimals} in {low} .. {high};")
    return "".join(f"{line}\n" for line in lines)


def ask(program: Program, head: str, probes: Iterable[Probe], fixings: bytes) -> None:
    """Gives each walk the answers of its questions. What several ask in the same words is asked
    once.
    """
    asking: dict[str, list[Probe]] = {}
    for probe in probes:
        asking.setdefault(probe.text, []).append(probe)
    for some in books_of(list(asking)):
        for text, is_true in zip(some, answers_of(program, head, some, fixings)):
            for it in asking[text]:
                it.walk.answers[it.question] = is_true


def books_of(texts: Sequence[str]) -> Iterator[Sequence[str]]:
    """Contracts in books that are not too long."""
    first = size = 0
    for number, text in enumerate(texts):
        size += len(text)
        if size > MOST_BYTES:
            yield texts[first : number + 1]
            first, size = number + 1, 0
    if first < len(texts):
        yield texts[first:]


def answers_of(program: Program, head: str, texts: Sequence[str], fixings: bytes) -> list[bool]:
    """Whether each of these contracts pays."""
    book = head + "".join(f"contract p{number} = {text};\n" for number, text in enumerate(texts))
    answer = program.run("flows", book.encode("latin-1"), fixings)
    if fault := answer.fault:
        raise Stop(Status.DESK, f"the program does not answer a choice: {fault.message}")
    paid = {line.partition(",")[0] for line in answer.text.splitlines()}
    return [f"p{number}" in paid for number in range(len(texts))]
