"""The parts that a grammar is made of. Each takes a token, passes it on to the part behind, or
refuses it; and each says what it takes.

A part that passes a token on is optional: it then counts as absent. At one token the first kind of
fault counts of: syntax, number, date, deep, range, twice, unknown.
"""

from __future__ import annotations

from typing import TYPE_CHECKING

from ..days import ordinal_of
from . import tokens
from .names import Declared, NameSet
from .offers import GREATEST_DECIMALS, GREATEST_MANTISSA, Numbers, Offers, mantissa_of, whole_number
from .tokens import Token
from .trees import Argument, Term

if TYPE_CHECKING:
    from .machine import Machine

FIRST_ORIGIN, LAST_ORIGIN = ordinal_of("1900-01-01"), ordinal_of("2999-12-31")
GREATEST_SUM, MOST_NAMES = 100_000, 4
MOST_DAYS = 100_000


class Refused(Exception):
    """A token is at fault, of a kind."""

    def __init__(self, kind: str) -> None:
        super().__init__(kind)
        self.kind = kind


class Part:
    """What is expected at a place."""

    __slots__ = ()

    def take(self, token: Token, machine: Machine) -> bool:
        """Whether it takes the token; if not, the part behind is asked. Raises what is wrong with a
        token that may not be here.
        """
        raise NotImplementedError

    def offers(self, machine: Machine) -> Offers:
        """What it takes."""
        return Offers()


Form = tuple[Part, ...]


class Exactly(Part):
    """One word or mark."""

    __slots__ = ("text", "is_word")

    def __init__(self, text: str) -> None:
        self.text = text
        self.is_word = text[0].isalpha()

    def take(self, token: Token, machine: Machine) -> bool:
        if token.text != self.text:
            raise Refused("syntax")
        return True

    def offers(self, machine: Machine) -> Offers:
        return Offers(words=[self.text]) if self.is_word else Offers(marks=[self.text])


class End(Part):
    """The end of the text."""

    __slots__ = ()

    def take(self, token: Token, machine: Machine) -> bool:
        if token.kind != tokens.END:
            raise Refused("syntax")
        return True

    def offers(self, machine: Machine) -> Offers:
        return Offers(end=True)


class OneOf(Part):
    """One of several words or marks."""

    __slots__ = ("texts", "role", "are_words")

    def __init__(self, role: str, *texts: str) -> None:
        self.texts = texts
        self.role = role
        self.are_words = texts[0].isalpha() or "_" in texts[0]

    def take(self, token: Token, machine: Machine) -> bool:
        if token.text not in self.texts:
            raise Refused("syntax")
        machine.argue(self.role, token)
        return True

    def offers(self, machine: Machine) -> Offers:
        return Offers(words=list(self.texts)) if self.are_words else Offers(marks=list(self.texts))


class Number(Part):
    """A number; `judge` says what it may be. With a sign before it the place is that of the sign,
    and the fault's is that of the number.
    """

    __slots__ = ("role",)

    def __init__(self, role: str) -> None:
        self.role = role

    def judge(self, token: Token, negative: bool, machine: Machine) -> None:
        raise NotImplementedError

    def range(self, negative: bool, machine: Machine) -> Numbers:
        raise NotImplementedError

    def take(self, token: Token, machine: Machine) -> bool:
        if token.kind != tokens.NUMBER:
            raise Refused("syntax")
        self.judge(token, False, machine)
        machine.argue(self.role, token)
        return True

    def offers(self, machine: Machine) -> Offers:
        numbers = self.range(False, machine)
        return Offers(numbers=[] if numbers.is_empty else [numbers])


class Integer(Number):
    """A number without a point, within limits."""

    __slots__ = ("low", "most")

    def __init__(self, role: str, most: int, low: int = 0) -> None:
        super().__init__(role)
        self.most = most
        self.low = low

    def limit(self, machine: Machine) -> int:
        return self.most

    def judge(self, token: Token, negative: bool, machine: Machine) -> None:
        if "." in token.text:
            raise Refused("syntax")
        number = whole_number(token.text, self.limit(machine))
        if number is None or number < self.low:
            raise Refused("number")
        self.accept(number, machine)

    def accept(self, number: int, machine: Machine) -> None:
        """What the number is for."""

    def range(self, negative: bool, machine: Machine) -> Numbers:
        return Numbers(0, self.low, self.limit(machine))


class Version(Integer):
    """The version of a text. Another one is no token that may be here."""

    __slots__ = ()

    def judge(self, token: Token, negative: bool, machine: Machine) -> None:
        try:
            super().judge(token, negative, machine)
        except Refused as refused:
            raise Refused("syntax") from refused

    def accept(self, number: int, machine: Machine) -> None:
        machine.declared.version = number


class Amounts(Integer):
    """The decimals of amounts."""

    __slots__ = ()

    def accept(self, number: int, machine: Machine) -> None:
        machine.declared.amounts = number


class Start(Integer):
    """The day on which the contracts begin."""

    __slots__ = ()

    def accept(self, number: int, machine: Machine) -> None:
        machine.declared.start = number


class TemplateDays(Integer):
    """The days of a template."""

    __slots__ = ()

    def accept(self, number: int, machine: Machine) -> None:
        machine.last_declared.days = number


class LabelScale(Integer):
    """The decimals of a number that is observed."""

    __slots__ = ()

    def accept(self, number: int, machine: Machine) -> None:
        machine.last_declared.decimals = number


class AssetDecimals(Integer):
    """The decimals of an asset, at most those of amounts."""

    __slots__ = ()

    def limit(self, machine: Machine) -> int:
        return machine.declared.amounts

    def accept(self, number: int, machine: Machine) -> None:
        machine.last_declared.decimals = number


class DecimalNumber(Number):
    """A number with or without a point."""

    __slots__ = ()

    def judge(self, token: Token, negative: bool, machine: Machine) -> None:
        if mantissa_of(token.text) is None:
            raise Refused("number")

    def range(self, negative: bool, machine: Machine) -> Numbers:
        return Numbers(GREATEST_DECIMALS)


class Bound(Number):
    """A bound of a label: the lower one, or the upper one above that. It is held as a count of the
    label's last decimal.
    """

    __slots__ = ("is_upper",)

    def __init__(self, role: str, is_upper: bool) -> None:
        super().__init__(role)
        self.is_upper = is_upper

    def judge(self, token: Token, negative: bool, machine: Machine) -> None:
        written = mantissa_of(token.text)
        if written is None:
            raise Refused("number")
        label = machine.last_declared
        mantissa, decimals = written
        if decimals > (label.decimals or 0):
            raise Refused("range")
        mantissa *= 10 ** ((label.decimals or 0) - decimals)
        if mantissa > GREATEST_MANTISSA:
            raise Refused("number")
        mantissa = -mantissa if negative else mantissa
        if not self.is_upper:
            label.low = mantissa
        elif label.low is not None and mantissa < label.low:
            raise Refused("range")
        else:
            label.high = mantissa

    def range(self, negative: bool, machine: Machine) -> Numbers:
        label = machine.last_declared
        low, high = 0, GREATEST_MANTISSA
        if self.is_upper and label.low is not None:
            low, high = (low, min(high, -label.low)) if negative else (max(low, label.low), high)
        return Numbers(
            label.decimals or 0,
            low if low > 0 else None,
            None if high == GREATEST_MANTISSA else high,
        )


class Signed(Part):
    """A number with or without a sign."""

    __slots__ = ("number", "negative")

    def __init__(self, number: Number) -> None:
        self.number = number
        self.negative = Negative(number)

    def take(self, token: Token, machine: Machine) -> bool:
        if token.text == "-":
            machine.stack.append(self.negative)
            return True
        return self.number.take(token, machine)

    def offers(self, machine: Machine) -> Offers:
        offers = Offers(marks=["-"])
        offers.add(self.number.offers(machine))
        return offers


class Negative(Part):
    """A number behind its sign."""

    __slots__ = ("number",)

    def __init__(self, number: Number) -> None:
        self.number = number

    def take(self, token: Token, machine: Machine) -> bool:
        if token.kind != tokens.NUMBER:
            raise Refused("syntax")
        self.number.judge(token, True, machine)
        machine.argue(self.number.role, Token(token.kind, "-" + token.text, machine.last_at))
        return True

    def offers(self, machine: Machine) -> Offers:
        numbers = self.number.range(True, machine)
        return Offers(numbers=[] if numbers.is_empty else [numbers])


class OriginDate(Part):
    """The date of day 0."""

    __slots__ = ()

    def take(self, token: Token, machine: Machine) -> bool:
        if token.kind != tokens.DATE:
            raise Refused("syntax")
        ordinal = ordinal_of(token.text)
        if ordinal is None or not FIRST_ORIGIN <= ordinal <= LAST_ORIGIN:
            raise Refused("date")
        machine.declared.origin = ordinal
        machine.argue("origin", token)
        return True

    def offers(self, machine: Machine) -> Offers:
        return Offers(date=True)


class New(Part):
    """A name that is declared here."""

    __slots__ = ("kind",)

    def __init__(self, kind: NameSet) -> None:
        self.kind = kind

    def take(self, token: Token, machine: Machine) -> bool:
        if token.kind != tokens.NAME:
            raise Refused("syntax")
        names = machine.declared.sets[self.kind]
        if token.text in names:
            raise Refused("twice")
        machine.declare(names, Declared(token.text, token.at))
        return True

    def offers(self, machine: Machine) -> Offers:
        return Offers(new=self.kind, taken=frozenset(machine.declared.sets[self.kind]))


class Binder(Part):
    """A name that a term binds."""

    __slots__ = ()

    def take(self, token: Token, machine: Machine) -> bool:
        if token.kind != tokens.NAME:
            raise Refused("syntax")
        machine.argue("binder", token)
        return True

    def offers(self, machine: Machine) -> Offers:
        return Offers(new="binder")


class Use(Part):
    """A declared name; of labels perhaps only numbers, or only flags."""

    __slots__ = ("kind", "role", "sort")

    def __init__(self, kind: NameSet, role: str, sort: str = "") -> None:
        self.kind = kind
        self.role = role
        self.sort = sort

    def take(self, token: Token, machine: Machine) -> bool:
        if token.kind != tokens.NAME:
            raise Refused("syntax")
        declared = machine.declared.sets[self.kind].get(token.text)
        if declared is None or (self.sort and declared.is_flag != (self.sort == "flags")):
            raise Refused("unknown")
        machine.argue(self.role, token)
        return True

    def offers(self, machine: Machine) -> Offers:
        known = machine.declared.sets[self.kind].items()
        names = [
            name for name, it in known if not self.sort or it.is_flag == (self.sort == "flags")
        ]
        return Offers(names={self.sort or self.kind.plural: names})


class Lines(Part):
    """Statements that may stand here, by their first words: once, or any number of times."""

    __slots__ = ("forms", "repeated")

    def __init__(self, repeated: bool, **forms: Form) -> None:
        self.forms = forms
        self.repeated = repeated

    def take(self, token: Token, machine: Machine) -> bool:
        form = self.forms.get(token.text)
        if form is None:
            return False
        if self.repeated:
            machine.stack.append(self)
        machine.expect(form)
        return True

    def offers(self, machine: Machine) -> Offers:
        return Offers(words=list(self.forms))


class Further(Part):
    """A mark and what stands behind it, any number of times."""

    __slots__ = ("mark", "form")

    def __init__(self, mark: str, *form: Part) -> None:
        self.mark = mark
        self.form = form

    def take(self, token: Token, machine: Machine) -> bool:
        if token.text != self.mark:
            return False
        machine.stack.append(self)
        machine.expect(self.form)
        return True

    def offers(self, machine: Machine) -> Offers:
        return Offers(marks=[self.mark])


class Decimals(Part):
    """The decimals of an asset, which may stand in version 2."""

    __slots__ = ("form",)

    def __init__(self, *form: Part) -> None:
        self.form = form

    def take(self, token: Token, machine: Machine) -> bool:
        if token.text != ":" or machine.declared.version < 2:
            return False
        machine.expect(self.form)
        return True

    def offers(self, machine: Machine) -> Offers:
        return Offers(marks=[":"] if machine.declared.version >= 2 else [])


class Days(Part):
    """A count of days: a number or a template, and in version 2 a sum of them."""

    __slots__ = ("item",)

    def __init__(self, item: DayItem) -> None:
        self.item = item

    def take(self, token: Token, machine: Machine) -> bool:
        machine.sum_number = machine.sum_names = 0
        return self.item.take(token, machine)

    def offers(self, machine: Machine) -> Offers:
        machine.sum_number = machine.sum_names = 0
        return self.item.offers(machine)


class DayItem(Part):
    """An item of a sum of days."""

    __slots__ = ("further",)

    def __init__(self) -> None:
        self.further = FurtherItems(self)

    def take(self, token: Token, machine: Machine) -> bool:
        if token.kind == tokens.NUMBER:
            if "." in token.text:
                raise Refused("syntax")
            number = whole_number(token.text, GREATEST_SUM - machine.sum_number)
            if number is None:
                raise Refused("number")
            machine.sum_number += number
            machine.argue("days", token)
        elif token.kind == tokens.NAME:
            if machine.sum_names == MOST_NAMES:
                raise Refused("number")
            if token.text not in machine.declared.sets[NameSet.TEMPLATE]:
                raise Refused("unknown")
            machine.sum_names += 1
            machine.argue("template", token)
        else:
            raise Refused("syntax")
        if machine.declared.version >= 2:
            machine.stack.append(self.further)
        return True

    def offers(self, machine: Machine) -> Offers:
        templates = list(machine.declared.sets[NameSet.TEMPLATE])
        names = {} if machine.sum_names == MOST_NAMES else {NameSet.TEMPLATE.plural: templates}
        return Offers(names=names, numbers=[Numbers(0, 0, GREATEST_SUM - machine.sum_number)])


class FurtherItems(Part):
    """A plus and a further item of a sum of days."""

    __slots__ = ("item",)

    def __init__(self, item: DayItem) -> None:
        self.item = item

    def take(self, token: Token, machine: Machine) -> bool:
        if token.text != "+":
            return False
        machine.stack.append(self.item)
        return True

    def offers(self, machine: Machine) -> Offers:
        return Offers(marks=["+"])


class PlanNumber(Integer):
    """A number of a plan that the number of its payments depends on."""

    __slots__ = ()

    def accept(self, number: int, machine: Machine) -> None:
        machine.plan[self.role] = number


class Times(Integer):
    """The number of payments, the last of which has to be on day 100,000 or before."""

    __slots__ = ()

    def limit(self, machine: Machine) -> int:
        return min(self.most, (MOST_DAYS - machine.plan["first"]) // machine.plan["every"] + 1)


class Size(Part):
    """The size of a plan's payments: a number, or what is observed."""

    __slots__ = ("number", "form")

    def __init__(self, number: Signed, form: Form) -> None:
        self.number = number
        self.form = form

    def take(self, token: Token, machine: Machine) -> bool:
        if token.text != "round":
            return self.number.take(token, machine)
        machine.argue("round", token)
        machine.expect(self.form)
        return True

    def offers(self, machine: Machine) -> Offers:
        offers = Offers(words=["round"])
        offers.add(self.number.offers(machine))
        return offers


class TermPart(Part):
    """A term. Its first token decides its form; at most so many terms may be open round it."""

    __slots__ = ("sort", "depth", "heads")

    def __init__(self, sort: str, depth: int) -> None:
        self.sort = sort
        self.depth = depth
        self.heads: dict[str, Form] = {}

    def take(self, token: Token, machine: Machine) -> bool:
        form = self.heads.get(token.text)
        if form is None:
            raise Refused("syntax")
        if len(machine.open) >= self.depth:
            raise Refused("deep")
        term = Term(self.sort, token.text, token.at)
        machine.add(term)
        machine.open.append(term)
        machine.expect(form)
        return True

    def offers(self, machine: Machine) -> Offers:
        if len(machine.open) >= self.depth:
            return Offers()
        words = [it for it in self.heads if it.isalpha()]
        return Offers(words=words, marks=[it for it in self.heads if not it.isalpha()])


class ExpressionPart(TermPart):
    """An expression, which may be a number or a bound name too."""

    __slots__ = ()

    def take(self, token: Token, machine: Machine) -> bool:
        if token.kind not in (tokens.NUMBER, tokens.NAME):
            return super().take(token, machine)
        if token.kind == tokens.NUMBER and mantissa_of(token.text) is None:
            raise Refused("number")
        if len(machine.open) >= self.depth:
            raise Refused("deep")
        term = Term(self.sort, token.kind, token.at, token.end)
        if token.kind == tokens.NAME:
            term.binder = machine.binder_of(token.text)
        term.arguments.append(
            Argument("number" if token.kind == tokens.NUMBER else "variable", token.text, token.at)
        )
        machine.add(term)
        return True

    def offers(self, machine: Machine) -> Offers:
        if len(machine.open) >= self.depth:
            return Offers()
        offers = super().offers(machine)
        offers.numbers.append(Numbers(GREATEST_DECIMALS))
        if machine.bound:
            offers.names["bound names"] = list(dict.fromkeys(it.text for it in machine.bound))
        return offers


class Action(Part):
    """What is done between two tokens; it takes none."""

    __slots__ = ()

    def act(self, machine: Machine) -> None:
        raise NotImplementedError

    def take(self, token: Token, machine: Machine) -> bool:
        self.act(machine)
        return False


class Close(Action):
    """The end of the innermost open term."""

    __slots__ = ()

    def act(self, machine: Machine) -> None:
        machine.open.pop().end = machine.last_end


class Bind(Action):
    """From here on the name of the innermost open term is bound."""

    __slots__ = ()

    def act(self, machine: Machine) -> None:
        machine.bound.append(machine.open[-1].arguments[0])


class Unbind(Action):
    """The end of what the last bound name is bound in."""

    __slots__ = ()

    def act(self, machine: Machine) -> None:
        machine.bound.pop()


