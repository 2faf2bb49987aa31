"""What is round a fault of a text: the tokens before and behind it, and the terms that are open
there.
"""

from __future__ import annotations

from functools import cached_property
from itertools import islice

from ..texts import tokens, trees
from ..texts.machine import Fault
from ..texts.names import Declarations, NameSet
from ..texts.reading import Reading
from ..texts.tokens import Token
from ..texts.trees import Statement, Term

FEW = 400


class Scene:
    """A fault of a text, in the statement in which it is."""

    def __init__(self, reading: Reading, fault: Fault) -> None:
        self.reading = reading
        self.fault = fault

    @cached_property
    def number(self) -> int:
        """The segment of the fault; that of a token behind a statement that lacks its end is the
        statement's.
        """
        found = self.reading.segment_at(self.fault.at)
        behind = found > 0 and self.reading.read(found - 1).missing and self.is_first_of(found)
        return found - 1 if behind else found

    def is_first_of(self, number: int) -> bool:
        segment = self.reading.segments[number]
        return next(tokens.tokens(self.reading.text, segment.at)).at == self.fault.at

    @property
    def base(self) -> int:
        return self.reading.segments[self.number].at

    @property
    def token(self) -> Token:
        return self.fault.token

    @property
    def is_first(self) -> bool:
        """Whether the fault is where a statement begins."""
        return not self.before

    @property
    def declared(self) -> Declarations:
        return self.reading.declared

    @cached_property
    def statement(self) -> Statement:
        """What was read of the statement before the fault."""
        return self.reading.read(self.number).statement

    @cached_property
    def before(self) -> list[Token]:
        """The tokens of the statement before the fault."""
        found = tokens.tokens(self.reading.text, self.base, self.fault.at)
        return [token for token in found if token.kind != tokens.END]

    @cached_property
    def behind(self) -> list[Token]:
        """The token at fault, and some behind it."""
        return list(islice(tokens.tokens(self.reading.text, self.fault.at), FEW))

    def last(self, back: int = 1) -> Token:
        """A token before the fault, counted backwards; an empty one if there is none."""
        return self.before[-back] if len(self.before) >= back else Token(tokens.END, "", self.base)

    def next(self, forth: int = 1) -> Token:
        """A token behind the one at fault."""
        return (
            self.behind[forth]
            if len(self.behind) > forth
            else Token(tokens.END, "", len(self.reading.text))
        )

    def written(self, at: int, end: int) -> str:
        """What is written between two places, without line ends."""
        return " ".join(self.reading.source.data[at:end].decode("utf-8", "replace").split())

    @cached_property
    def open(self) -> list[Term]:
        """The terms that are open at the fault, the innermost last."""
        found: list[Term] = []
        term = self.statement.term
        while term is not None and (term.end < 0):
            found.append(term)
            term = term.parts[-1] if term.parts else None
        return found

    @property
    def innermost(self) -> str:
        """The form of the innermost open term, or nothing."""
        return self.open[-1].form if self.open else ""

    @cached_property
    def operand(self) -> Term | None:
        """The expression that ends with the token before the fault, the greatest if there are
        several.
        """
        if not self.open or not self.open[-1].parts:
            return None
        last = self.open[-1].parts[-1]
        is_last = last.end >= 0 and self.base + last.end == self.last().end
        return last if is_last and last.sort == trees.EXPRESSION else None

    def operand_behind(self, forth: int = 1) -> str | None:
        """The number, name or form in parentheses that stands so many tokens behind the fault."""
        first, depth = self.next(forth), 0
        at = forth + 1 if first.text == "-" else forth
        while at < len(self.behind):
            token = self.behind[at]
            depth += (token.text == "(") - (token.text == ")")
            opens = token.kind == tokens.WORD and self.next(at + 1).text == "("
            if depth < 0 or token.text == ";":
                return None
            if depth == 0 and not opens:
                return self.written(first.at, token.end)
            at += 1
        return None

    def set_of(self, name: str) -> NameSet | None:
        """The set in which a name is declared, if it is in one."""
        return next((kind for kind in NameSet if name in self.declared.names(kind)), None)
