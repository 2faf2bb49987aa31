"""How much a rate is moved: by a part of it, or by an amount."""

from __future__ import annotations

import argparse
import re
from dataclasses import dataclass
from fractions import Fraction

STEP = re.compile(r"([+-]?)([0-9]{1,30}(?:[.][0-9]{1,30})?)(%?)")


@dataclass(frozen=True)
class Step:
    """A factor and an amount that is added: a rate becomes `rate * factor + added`."""

    name: str
    factor: Fraction = Fraction(1)
    added: Fraction = Fraction(0)

    def moved(self, value: Fraction) -> Fraction:
        return value * self.factor + self.added


def step_of(text: str) -> Step:
    """The step of a word such as `-5%` or `0.0025`, with its name such as `down_5` or
    `plus_0_0025`.
    """
    found = STEP.fullmatch(text)
    if not found:
        raise argparse.ArgumentTypeError(
            f"{text} is no step: it is a number, or one with a % behind it"
        )
    sign, written, is_part = found.groups()
    size = Fraction(written) * (-1 if sign == "-" else 1)
    words = ("down", "up") if is_part else ("minus", "plus")
    name = f"{words[size >= 0]}_{written.replace('.', '_')}"
    return Step(name, factor=1 + size / 100) if is_part else Step(name, added=size)


def steps_of(text: str) -> list[Step]:
    """The steps of a word, with commas between them."""
    return [step_of(it) for it in text.split(",")]
