"""The fields of a record by their names. What is wrong with one is told with file, record and
field.
"""

from __future__ import annotations

import re
from collections.abc import Collection, Mapping
from dataclasses import dataclass, field

from ..command_line import is_name, meant
from ..days import Calendar, Day, day_of
from ..explanations.notes import counted
from ..program import Status, Stop
from ..texts.offers import mantissa_of
from ..texts.tokens import RESERVED

DECIMAL = re.compile(r"-?[0-9]+(?:[.][0-9]+)?")
WHOLE = re.compile(r"[0-9]{1,18}")


def decimals_of(number: str) -> int:
    """How many decimals a number is written with."""
    return len(number.partition(".")[2])


@dataclass(frozen=True)
class Fields:
    """The fields of a record: where it is, their texts by name, and what names are told as."""

    where: str
    texts: Mapping[str, str]
    told: Mapping[str, str] = field(default_factory=dict)

    def fault(self, name: str, what: str) -> Stop:
        """What is wrong with a field."""
        return Stop(Status.ROW, f"{self.where}: {self.told.get(name, name)}: {what}")

    def has(self, name: str) -> bool:
        return bool(self.texts.get(name))

    def text(self, name: str) -> str:
        """The text of a field, which may not be empty."""
        if not self.has(name):
            raise self.fault(name, "it is missing")
        return self.texts[name]

    def new_name(self, name: str) -> str:
        """A name that the text may declare."""
        text = self.text(name)
        if is_name(text):
            return text
        near = re.sub("[^A-Za-z0-9_]", "_", text)[:64]
        near = f"; perhaps {near}" if is_name(near) else ""
        if text in RESERVED:
            raise self.fault(name, f"{text!r} is a word of the language, and no name")
        raise self.fault(name, f"{text!r} is no name of letters, digits and _{near}")

    def declared(self, name: str, known: Collection[str], kind: str) -> str:
        """A name that is declared."""
        text = self.text(name)
        if text in known:
            return text
        cure = meant(text, list(known))
        raise self.fault(name, f"{text} is no declared {kind}{cure}")

    def one_of(self, name: str, words: Collection[str]) -> str:
        text = self.text(name)
        if text in words:
            return text
        raise self.fault(name, f"{text} is none of {', '.join(words)}")

    def decimal(self, name: str, most: int = 27) -> str:
        """A number with at most so many decimals, as it is written."""
        text = self.text(name)
        if not DECIMAL.fullmatch(text) or mantissa_of(text.lstrip("-")) is None:
            raise self.fault(name, f"{text!r} is no number{cure_of(text)}")
        if decimals_of(text) > most:
            has = counted(decimals_of(text), "decimal")
            raise self.fault(name, f"{text} has {has}, and at most {most} may be here")
        return text

    def whole(self, name: str, low: int) -> int:
        """A number without a point, from a least one on."""
        text = self.text(name)
        if not WHOLE.fullmatch(text) or int(text) < low:
            raise self.fault(name, f"{text!r} is no whole number from {low} on")
        return int(text)

    def written_day(self, name: str) -> Day:
        """A day, as a date or as a number."""
        text = self.text(name)
        if (day := day_of(text)) is None:
            raise self.fault(name, f"{text!r} is neither a date YYYY-MM-DD nor a number of days")
        return day

    def day(self, name: str, calendar: Calendar) -> int:
        """The number of a day of the portfolio."""
        number = calendar.number(self.written_day(name))
        if number is None:
            raise self.fault(name, f"{self.texts[name]} is a date, and the portfolio has no origin")
        return number


def cure_of(text: str) -> str:
    """What to write in the place of a number of a spreadsheet, if that is plain to see."""
    plain = text.replace("'", "").replace(" ", "").lstrip("+")
    if re.fullmatch(r"-?[0-9]{1,3}(,[0-9]{3})+([.][0-9]+)?", plain):
        plain = plain.replace(",", "")
    elif re.fullmatch(r"-?[0-9]+,[0-9]+", plain):
        plain = plain.replace(",", ".")
    if plain.startswith("."):
        plain = f"0{plain}"
    return f": write {plain}" if DECIMAL.fullmatch(plain) and plain != text else ""
