"""What may stand at a place: words, marks, declared names, a new name, numbers, a date, the end."""

from __future__ import annotations

from collections.abc import Mapping, Sequence
from typing import NamedTuple

from . import tokens
from .names import NameSet
from .tokens import Token

GREATEST_MANTISSA = 10**37
GREATEST_DECIMALS = 27


def whole_number(text: str, most: int) -> int | None:
    """The number of digits, if it is at most this. A text may be longer than Python makes a number
    of.
    """
    digits = text.lstrip("0") or "0"
    if len(digits) > len(str(most)):
        return None
    number = int(digits)
    return number if number <= most else None


def mantissa_of(text: str) -> tuple[int, int] | None:
    """The mantissa and the decimals of a number, if they are within the limits of texts."""
    digits, _, decimals = text.partition(".")
    mantissa = whole_number(digits + decimals, GREATEST_MANTISSA)
    return (
        None if mantissa is None or len(decimals) > GREATEST_DECIMALS else (mantissa, len(decimals))
    )


def number_told(mantissa: int, decimals: int) -> str:
    """A number as it is written, from a count of its last decimal."""
    digits = str(abs(mantissa)).rjust(decimals + 1, "0")
    whole, fraction = digits[: len(digits) - decimals], digits[len(digits) - decimals :]
    return f"{'-' if mantissa < 0 else ''}{whole}{'.' if fraction else ''}{fraction}"


class Numbers(NamedTuple):
    """Numbers with at most so many decimals, within bounds that are counted in the last of these.
    """

    decimals: int
    low: int | None = None
    high: int | None = None

    def has(self, text: str) -> bool:
        written = mantissa_of(text)
        if written is None or written[1] > self.decimals:
            return False
        number = written[0] * 10 ** (self.decimals - written[1])
        return (
            (self.low is None or self.low <= number) and (self.high is None or number <= self.high)
        )

    @property
    def is_empty(self) -> bool:
        return self.low is not None and self.high is not None and self.low > self.high

    def told(self) -> str:
        kind = "a number" if self.decimals else "a number without a point"
        if 0 < self.decimals < GREATEST_DECIMALS:
            kind += f" with at most {self.decimals} decimal" + "s" * (self.decimals > 1)
        low = number_told(self.low, self.decimals) if self.low is not None else None
        high = number_told(self.high, self.decimals) if self.high is not None else None
        if low is not None and high is not None:
            return f"the number {low}" if low == high else f"{kind} from {low} to {high}"
        if low is not None:
            return f"{kind} from {low} on"
        return f"{kind} up to {high}" if high is not None else kind


class Offers:
    """What may stand at a place. `new` is the set that a new name goes into, or a text for one that
    is bound.
    """

    def __init__(
        self,
        words: Sequence[str] = (),
        marks: Sequence[str] = (),
        names: Mapping[str, list[str]] | None = None,
        new: NameSet | str | None = None,
        taken: frozenset[str] = frozenset(),
        numbers: Sequence[Numbers] = (),
        date: bool = False,
        end: bool = False,
    ) -> None:
        self.words = list(words)
        self.marks = list(marks)
        self.names = dict(names or {})
        self.new = new
        self.taken = taken
        self.numbers = list(numbers)
        self.date = date
        self.end = end

    def add(self, other: Offers) -> None:
        """Takes over what else may stand here."""
        self.words += [it for it in other.words if it not in self.words]
        self.marks += [it for it in other.marks if it not in self.marks]
        for kind, names in other.names.items():
            self.names.setdefault(kind, []).extend(names)
        self.new, self.taken = self.new or other.new, self.taken | other.taken
        self.numbers += [it for it in other.numbers if not it.is_empty]
        self.date, self.end = self.date or other.date, self.end or other.end

    def have(self, token: Token) -> bool:
        """Whether the token is one of them."""
        if token.kind == tokens.NAME:
            known = any(token.text in names for names in self.names.values())
            return (
                known
                or token.text in self.words
                or (self.new is not None and token.text not in self.taken)
            )
        if token.kind == tokens.NUMBER:
            return any(it.has(token.text) for it in self.numbers)
        if token.kind == tokens.DATE:
            return self.date
        if token.kind == tokens.END:
            return self.end
        return token.text in self.words or token.text in self.marks

    def told(self, most: int = 12) -> list[str]:
        """Each of them in words; of more than so many names of a set the rest is counted."""
        said = [f"'{it}'" for it in self.words + self.marks]
        if self.new is not None:
            said.append(
                "a new name"
                if isinstance(self.new, str)
                else f"a new name of {article(self.new.value)}"
            )
        for kind, names in self.names.items():
            more = f" and {len(names) - most} more" if len(names) > most else ""
            said.append(
                f"{kind}: {' '.join(names[:most])}{more}" if names else f"{kind} (none is declared)"
            )
        said += [it.told() for it in self.numbers]
        if self.date:
            said.append("a date YYYY-MM-DD")
        if self.end:
            said.append("the end of the text")
        return said


def article(word: str) -> str:
    """The word with its article."""
    return ("an " if word[0] in "aeiou" else "a ") + word
