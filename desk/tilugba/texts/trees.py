"""The trees of a text: statements, and the terms in them. Places are those of bytes, counted from
where the statement's text begins.
"""

from __future__ import annotations

from collections.abc import Iterator
from typing import NamedTuple

from .names import Declared

CONTRACT, EXPRESSION, AMOUNT = "contract", "expression", "amount"
# The forms of expressions that begin with no word.
NUMBER, NAME, OPERATION = "number", "name", "("


class Argument(NamedTuple):
    """What stands in a term or a statement and is no term: what it is there, its text with a sign,
    and its place.
    """

    role: str
    text: str
    at: int


class Term:
    """A contract, an expression or an amount of code: its form, its bytes, the terms in it and what
    else stands in it, in order.
    """

    __slots__ = ("sort", "form", "at", "end", "parts", "arguments", "binder")

    def __init__(self, sort: str, form: str, at: int, end: int = -1) -> None:
        self.sort = sort
        self.form = form
        self.at = at
        self.end = end
        self.parts: list[Term] = []
        self.arguments: list[Argument] = []
        # Of a name, the place of what binds it.
        self.binder = -1

    def nodes(self) -> Iterator[Term]:
        """The term and all terms in it, as refusals count them."""
        rest = [self]
        while rest:
            term = rest.pop()
            yield term
            rest.extend(reversed(term.parts))

    def told(self, *roles: str) -> list[str]:
        """The texts of the arguments of these roles."""
        return [it.text for it in self.arguments if it.role in roles]


class Statement:
    """A statement: its first word, what it declares, its term if it has one, and what else stands
    in it, in order.
    """

    __slots__ = ("word", "declared", "term", "arguments")

    def __init__(self) -> None:
        self.word = ""
        self.declared: list[Declared] = []
        self.term: Term | None = None
        self.arguments: list[Argument] = []

    @property
    def name(self) -> str:
        """The first name that it declares, or nothing."""
        return self.declared[0].name if self.declared else ""
