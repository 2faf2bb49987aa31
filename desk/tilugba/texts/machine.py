"""Reads tokens by a grammar: a stack of the parts that are expected. Each token is taken by the
first of them, or is at fault.
"""

from __future__ import annotations

from collections.abc import Iterable
from typing import NamedTuple

from .names import Declarations, Declared
from .offers import Offers
from .parts import Form, Part, Refused
from .tokens import Token
from .trees import Argument, Statement, Term


class Fault(NamedTuple):
    """A fault of a text: its kind, the token at which it is, and what may stand there."""

    kind: str
    token: Token
    offers: Offers

    @property
    def at(self) -> int:
        return self.token.at


class Machine:
    """The state between two tokens."""

    __slots__ = (
        "declared", "stack", "statement", "open", "bound", "passed", "plan",
        "last_declared", "last_at", "last_end", "sum_number", "sum_names",
    )  # fmt: skip

    def __init__(self, declared: Declarations, stack: list[Part]) -> None:
        self.declared = declared
        self.stack = stack
        self.statement = Statement()
        self.open: list[Term] = []
        self.bound: list[Argument] = []
        # The parts that passed the last token on, which may stand there too.
        self.passed: list[Part] = []
        self.plan: dict[str, int] = {}
        self.last_declared = Declared("", 0)
        self.last_at = self.last_end = self.sum_number = self.sum_names = 0

    def expect(self, form: Form) -> None:
        self.stack.extend(reversed(form))

    def add(self, term: Term) -> None:
        """A term begins, in the innermost open one or in the statement."""
        if self.open:
            self.open[-1].parts.append(term)
        else:
            self.statement.term = term

    def argue(self, role: str, token: Token) -> None:
        """A token that is no term stands in the innermost open term, or in the statement."""
        holder = self.open[-1] if self.open else self.statement
        holder.arguments.append(Argument(role, token.text, token.at))

    def declare(self, names: dict[str, Declared], declared: Declared) -> None:
        names[declared.name] = self.last_declared = declared
        self.statement.declared.append(declared)

    def binder_of(self, name: str) -> int:
        """The place of what binds a name, the innermost if there are several."""
        for binder in reversed(self.bound):
            if binder.text == name:
                return binder.at
        raise Refused("unknown")

    def read(self, tokens: Iterable[Token]) -> Fault | None:
        """Reads tokens up to the first fault, which it returns."""
        stack, passed = self.stack, self.passed
        for token in tokens:
            if passed:
                passed.clear()
            try:
                part = stack.pop()
                while not part.take(token, self):
                    passed.append(part)
                    part = stack.pop()
            except Refused as refused:
                passed.append(part)
                return Fault(refused.kind, token, self.offers())
            self.last_at = token.at
            self.last_end = token.at + len(token.text)
        return None

    def offers(self) -> Offers:
        """What may stand at the last token, which was refused."""
        offers = Offers()
        for part in self.passed:
            offers.add(part.offers(self))
        return offers
