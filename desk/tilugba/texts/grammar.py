"""The four grammars as data: portfolios of versions 1 and 2, payoff code, schedules.

A form is written with a blank between its parts. What is in capitals is a part by its name, all
else is a word or a mark.
"""

from __future__ import annotations

from collections.abc import Mapping
from typing import NamedTuple

from .names import NameSet
from .parts import (
    Amounts,
    AssetDecimals,
    Bind,
    Binder,
    Bound,
    Close,
    DayItem,
    Days,
    DecimalNumber,
    Decimals,
    End,
    Exactly,
    ExpressionPart,
    Form,
    Further,
    Integer,
    LabelScale,
    Lines,
    New,
    OneOf,
    OriginDate,
    Part,
    PlanNumber,
    Signed,
    Size,
    Start,
    TemplateDays,
    TermPart,
    Times,
    Unbind,
    Use,
    Version,
)
from .trees import AMOUNT, CONTRACT, EXPRESSION

MODES = ("half_even", "half_away", "floor", "ceil")
OPERATORS = ("+", "-", "*", "<", "<=", ">", ">=", "=", "!=", "&", "|")


class Grammar(NamedTuple):
    """A grammar: its name, what a whole text is, and the words that begin a definition behind the
    declarations.
    """

    name: str
    word: str
    text: Form
    # What may stand behind a definition.
    further: Form
    definitions: frozenset[str]


CONTRACT_TERM = TermPart(CONTRACT, 200)
AMOUNT_TERM = TermPart(AMOUNT, 400)
EXPRESSION_OF_CONTRACTS = ExpressionPart(EXPRESSION, 200)
EXPRESSION_OF_CODE = ExpressionPart(EXPRESSION, 400)
A_NUMBER = Signed(DecimalNumber("number"))

PARTS: dict[str, Part] = {
    "ONE": Version("version", 1, low=1),
    "ONE_OR_TWO": Version("version", 2, low=1),
    "AMOUNTS": Amounts("amounts", 12),
    "ORIGIN": OriginDate(),
    "START": Start("start", 1_000_000),
    "NEW_PARTY": New(NameSet.PARTY),
    "MORE_PARTIES": Further(",", New(NameSet.PARTY)),
    "NEW_ASSET": New(NameSet.ASSET),
    "DECIMALS": Decimals(AssetDecimals("decimals", 12)),
    "MORE_ASSETS": Further(",", New(NameSet.ASSET), Decimals(AssetDecimals("decimals", 12))),
    "NEW_LABEL": New(NameSet.LABEL),
    "SCALE": LabelScale("scale", 18),
    "LOWER": Signed(Bound("bound", is_upper=False)),
    "UPPER": Signed(Bound("bound", is_upper=True)),
    "NEW_TEMPLATE": New(NameSet.TEMPLATE),
    "TEMPLATE_DAYS": TemplateDays("days", 100_000),
    "NEW_CONTRACT": New(NameSet.CONTRACT),
    "ASSET": Use(NameSet.ASSET, "asset"),
    "PAYER": Use(NameSet.PARTY, "payer"),
    "RECEIVER": Use(NameSet.PARTY, "receiver"),
    "LABEL": Use(NameSet.LABEL, "label"),
    "NUMBER_LABEL": Use(NameSet.LABEL, "label", "numbers"),
    "FLAG_LABEL": Use(NameSet.LABEL, "label", "flags"),
    "DAYS": Days(DayItem()),
    "DATE": Signed(Integer("date", 2_000_000)),
    "TEMPLATES": Further("+", Use(NameSet.TEMPLATE, "template")),
    "CONTRACT": CONTRACT_TERM,
    "EXPRESSION": EXPRESSION_OF_CONTRACTS,
    "AMOUNT": AMOUNT_TERM,
    "CODE_EXPRESSION": EXPRESSION_OF_CODE,
    "NUMBER": A_NUMBER,
    "NEGATIVE": A_NUMBER.negative,
    "OPERATOR": OneOf("operator", *OPERATORS),
    "MODE": OneOf("mode", *MODES),
    "PLACES": Integer("places", 27),
    "OFFSET": Signed(Integer("offset", 1_000_000)),
    "LENGTH": Integer("length", 100_000),
    "BINDER": Binder(),
    "BIND": Bind(),
    "UNBIND": Unbind(),
    "CLOSE": Close(),
    "LAG": Integer("lag", 1_000_000),
    "FIRST": PlanNumber("first", 100_000),
    "EVERY": PlanNumber("every", 100_000, low=1),
    "TIMES": Times("times", 5_000, low=1),
    "FEW_TIMES": Times("times", 60, low=1),
    "END": End(),
}


def form(written: str, parts: Mapping[str, Part] = PARTS) -> Form:
    """The parts of a form."""
    return tuple(parts[word] if word in parts else Exactly(word) for word in written.split())


def expression_heads(
    expression: str, read: str, time: str, parts: Mapping[str, Part] = PARTS
) -> dict[str, Form]:
    """The forms of expressions by their first tokens, with the word that reads a label and when it
    is read.
    """
    written = {
        "true": "",
        "false": "",
        "-": "NEGATIVE",
        "(": "E OPERATOR E )",
        read: f"( LABEL , {time} )",
        "neg": "( E )",
        "not": "( E )",
        "min": "( E , E )",
        "max": "( E , E )",
        "if": "( E , E , E )",
        "widen": "( PLACES , E )",
        "round": "( MODE , PLACES , E )",
        "div": "( MODE , PLACES , E , E )",
        "acc": "( BINDER , BIND E UNBIND , LENGTH , E )",
    }
    named = {
        head: [expression if it == "E" else it for it in said.split()]
        for head, said in written.items()
    }
    return {head: form(" ".join([*said, "CLOSE"]), parts) for head, said in named.items()}


def heads(written: Mapping[str, str], parts: Mapping[str, Part] = PARTS) -> dict[str, Form]:
    return {head: form(said + " CLOSE", parts) for head, said in written.items()}


CONTRACT_FORMS = {
    "zero": "",
    "pay": "( ASSET , PAYER , RECEIVER )",
    "both": "( CONTRACT , CONTRACT )",
    "scale": "( EXPRESSION , CONTRACT )",
    "after": "( DAYS , CONTRACT )",
    "let": "BINDER = EXPRESSION in BIND CONTRACT UNBIND",
    "if": "EXPRESSION within DAYS then CONTRACT else CONTRACT",
}
AMOUNT_FORMS = {
    "none": "",
    "pay": "( DATE TEMPLATES , ASSET , PAYER , RECEIVER )",
    "add": "( AMOUNT , AMOUNT )",
    "scale": "( CODE_EXPRESSION , AMOUNT )",
    "let": "BINDER = CODE_EXPRESSION in BIND AMOUNT UNBIND",
    "loop": "CODE_EXPRESSION upto DATE TEMPLATES then AMOUNT else AMOUNT",
    "cut": "( DATE TEMPLATES , AMOUNT )",
}


EXPRESSION_OF_CONTRACTS.heads = expression_heads("EXPRESSION", "obs", "OFFSET")
EXPRESSION_OF_CODE.heads = expression_heads("CODE_EXPRESSION", "model", "DATE TEMPLATES")
CONTRACT_TERM.heads = heads(CONTRACT_FORMS)
AMOUNT_TERM.heads = heads(AMOUNT_FORMS)


def leg(times: str) -> str:
    return f"SIZE of ASSET from PAYER to RECEIVER first FIRST every EVERY times {times}"


TEMPLATE_LINE, CONTRACT_LINE = "NEW_TEMPLATE = TEMPLATE_DAYS ;", "NEW_CONTRACT = CONTRACT ;"
PARTS["SIZE"] = Size(A_NUMBER, form("( MODE , PLACES , NUMBER_LABEL , LAG , NUMBER )"))
PARTS |= {
    "ORIGIN_LINE": Lines(False, origin=form("ORIGIN ;")),
    "START_LINE": Lines(False, start=form("START ;")),
    "PARTY_LINES": Lines(True, party=form("NEW_PARTY MORE_PARTIES ;")),
    "ASSET_LINES": Lines(True, asset=form("NEW_ASSET DECIMALS MORE_ASSETS ;")),
    "LABEL_LINES": Lines(
        True, num=form("NEW_LABEL : SCALE in LOWER .. UPPER ;"), flag=form("NEW_LABEL ;")
    ),
    "TEMPLATE_LINES": Lines(True, template=form(TEMPLATE_LINE)),
    "CONTRACT_LINES": Lines(True, contract=form(CONTRACT_LINE)),
    "PLAN_LINES": Lines(
        True,
        leg=form(f"NEW_CONTRACT = {leg('TIMES')} ;"),
        swap=form(f"NEW_CONTRACT = {leg('TIMES')} against {leg('TIMES')} ;"),
        guarded=form(f"NEW_CONTRACT = {leg('FEW_TIMES')} until FLAG_LABEL covers NUMBER ;"),
    ),
}
DECLARATIONS = (
    "amounts AMOUNTS ; ORIGIN_LINE START_LINE PARTY_LINES ASSET_LINES LABEL_LINES TEMPLATE_LINES"
)

PORTFOLIO_TEXT, FURTHER_CONTRACTS = (
    f"portfolio ONE_OR_TWO ; {DECLARATIONS} CONTRACT_LINES END", "CONTRACT_LINES END"
)

PORTFOLIO = Grammar(
    "portfolio",
    "portfolio",
    form(PORTFOLIO_TEXT),
    form(FURTHER_CONTRACTS),
    frozenset({"contract"}),
)
CODE = Grammar(
    "code file",
    "payoff",
    form(f"payoff ONE ; {DECLARATIONS} code NEW_CONTRACT = AMOUNT ; END"),
    form("END"),
    frozenset({"code"}),
)
SCHEDULES = Grammar(
    "schedule file",
    "schedules",
    form(f"schedules ONE ; {DECLARATIONS} PLAN_LINES END"),
    form("PLAN_LINES END"),
    frozenset({"leg", "swap", "guarded"}),
)
GRAMMARS = (PORTFOLIO, CODE, SCHEDULES)
