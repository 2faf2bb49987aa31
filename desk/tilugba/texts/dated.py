"""The grammar of portfolios in which a date may stand for a number of days: of an `after`, a
`within`, an `obs` or a template.

Where a date stands it stands alone: there is no sum of a date and days.
"""

from __future__ import annotations

from typing import TYPE_CHECKING

from ..days import ordinal_of
from . import tokens
from .grammar import (
    CONTRACT_FORMS,
    CONTRACT_LINE,
    FURTHER_CONTRACTS,
    PARTS,
    PORTFOLIO,
    PORTFOLIO_TEXT,
    TEMPLATE_LINE,
    Grammar,
    expression_heads,
    form,
    heads,
)
from .offers import Offers
from .parts import ExpressionPart, Lines, Part, Refused, TermPart
from .tokens import Token
from .trees import CONTRACT, EXPRESSION

if TYPE_CHECKING:
    from .machine import Machine

# The role of a date among the arguments of a term or a statement.
DATE = "date"


class OrDate(Part):
    """A date, or what another part takes."""

    __slots__ = ("part",)

    def __init__(self, part: Part) -> None:
        self.part = part

    def take(self, token: Token, machine: Machine) -> bool:
        if token.kind != tokens.DATE:
            return self.part.take(token, machine)
        if ordinal_of(token.text) is None:
            raise Refused("date")
        machine.argue(DATE, token)
        return True

    def offers(self, machine: Machine) -> Offers:
        offers = self.part.offers(machine)
        offers.add(Offers(date=True))
        return offers


EXPRESSION_PART, CONTRACT_PART = ExpressionPart(EXPRESSION, 200), TermPart(CONTRACT, 200)
DATED_PARTS = {
    **PARTS,
    **{name: OrDate(PARTS[name]) for name in ("DAYS", "OFFSET", "TEMPLATE_DAYS")},
    "EXPRESSION": EXPRESSION_PART,
    "CONTRACT": CONTRACT_PART,
}
EXPRESSION_PART.heads = expression_heads("EXPRESSION", "obs", "OFFSET", DATED_PARTS)
CONTRACT_PART.heads = heads(CONTRACT_FORMS, DATED_PARTS)
DATED_PARTS |= {
    "TEMPLATE_LINES": Lines(True, template=form(TEMPLATE_LINE, DATED_PARTS)),
    "CONTRACT_LINES": Lines(True, contract=form(CONTRACT_LINE, DATED_PARTS)),
}
DATED = Grammar(
    PORTFOLIO.name,
    PORTFOLIO.word,
    form(PORTFOLIO_TEXT, DATED_PARTS),
    form(FURTHER_CONTRACTS, DATED_PARTS),
    PORTFOLIO.definitions,
)
