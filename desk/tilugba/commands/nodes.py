"""The nodes of a contract, numbered as refusals count them.

FILE is a portfolio or a code file, of which NAME is a contract, or the code. Prints a node a line:
its number, the line and the column at which it begins, and its first word. With --dot it prints the
tree of the nodes as a text for Graphviz instead.

Ends with 0; 1 if FILE is not read, has no contract or code of that name, or what it has does not
parse.
"""

from __future__ import annotations

import argparse
from collections.abc import Iterator
from pathlib import Path

from ..desk import Desk
from ..program import Status, Stop
from ..tables import read_file
from ..texts import tokens
from ..texts.reading import Reading
from ..texts.trees import EXPRESSION, NAME, NUMBER, Term

# The words of forms whose own arguments stand in no brackets, before these.
BETWEEN = {"if": "within", "loop": "upto", "after": "", "let": "", "cut": ""}


def configure(parser: argparse.ArgumentParser) -> None:
    parser.add_argument("name", metavar="NAME", help="the name of a contract, or of code")
    parser.add_argument("file", metavar="FILE", type=Path, help="a portfolio or a code file")
    parser.add_argument(
        "--dot", action="store_true", help="print a text for Graphviz: the tree of the nodes"
    )


def run(arguments: argparse.Namespace, desk: Desk) -> int:
    try:
        reading = Reading(read_file(arguments.file))
    except Stop as stop:
        raise Stop(Status.REFUSED, stop.message) from stop
    number = reading.definition(arguments.name)
    fault = (
        reading.fault_of(number)
        if number is not None
        else reading.fault
        if reading.is_broken
        else None
    )
    if fault:
        place = reading.source.place(fault.at)
        raise Stop(
            Status.REFUSED,
            f"{arguments.file}: fault text {fault.kind} line {place.line} column {place.column}",
        )
    term = reading.read(number).statement.term if number is not None else None
    if number is None or term is None:
        raise Stop(Status.REFUSED, f"there is no contract or code of this name: {arguments.name}")
    desk.write(
        *(
            dot_of(term, arguments.name)
            if arguments.dot
            else lines_of(reading, term, reading.segments[number].at)
        )
    )
    return Status.DONE


def lines_of(reading: Reading, term: Term, base: int) -> Iterator[str]:
    """A line for each node of a term, whose places count from a base."""
    for number, node in enumerate(term.nodes()):
        at = base + node.at
        place = reading.source.place(at)
        yield f"{number}\tline {place.line} column {place.column}\t{first_word(reading.text, at)}\n"


def first_word(text: str, at: int) -> str:
    """The token at a place, and the number behind it if that is a sign."""
    found = tokens.tokens(text, at)
    first = next(found).text
    return first + next(found).text if first == "-" else first


def dot_of(term: Term, name: str) -> Iterator[str]:
    """The tree of a term for Graphviz: contracts and amounts are boxes, expressions ovals, each
    with its number.
    """
    numbers = {id(node): number for number, node in enumerate(term.nodes())}
    yield f'digraph "{name}" {{\n'
    yield (
        '  graph [bgcolor="white", ordering=out, nodesep=0.15, ranksep=0.3]; node '
        '[fontname="sans", fontsize=12, height=0.3]; edge [arrowhead=none]\n'
    )
    for node in term.nodes():
        number = numbers[id(node)]
        shape = "oval" if node.sort == EXPRESSION else "box"
        yield f'  n{number} [label="{number}: {" ".join(words_of(node).split())}", shape={shape}]\n'
        yield from (f"  n{number} -> n{numbers[id(part)]}\n" for part in node.parts)
    yield "}\n"


def words_of(node: Term) -> str:
    """What a node says beside its parts: its form, and what else is in it."""
    told = ", ".join(it.text for it in node.arguments)
    # Operations, signs, numbers and names are told by their own text.
    if node.form in (NUMBER, NAME) or not node.form[:1].isalpha():
        return told
    if node.form in BETWEEN:
        return f"{node.form} {BETWEEN[node.form]} {told}".strip() if told else node.form
    return f"{node.form}({told})" if told else node.form
