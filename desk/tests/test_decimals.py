"""Exact sums, and means by each mode."""

import random
import unittest
from decimal import Decimal
from fractions import Fraction
from math import ceil, floor

from tilugba import decimals
from tilugba.texts.grammar import MODES

# Quotients by mode: of halves, of thirds, and of what is even.
ROWS = [
    (5, 2, (2, 3, 2, 3)),
    (7, 2, (4, 4, 3, 4)),
    (-5, 2, (-2, -3, -3, -2)),
    (-7, 2, (-4, -4, -4, -3)),
    (4, 3, (1, 1, 1, 2)),
    (5, 3, (2, 2, 1, 2)),
    (-4, 3, (-1, -1, -2, -1)),
    (6, 3, (2, 2, 2, 2)),
    (0, 3, (0, 0, 0, 0)),
]


class Quotients(unittest.TestCase):
    def test_each_mode(self) -> None:
        for top, below, wanted in ROWS:
            self.assertEqual(
                tuple(decimals.quotient(top, below, mode) for mode in MODES), wanted, (top, below)
            )

    def test_at_random(self) -> None:
        chance = random.Random(5)
        for _ in range(500):
            top, below = chance.randrange(-1000, 1000), chance.randrange(1, 20)
            exact = Fraction(top, below)
            self.assertEqual(decimals.quotient(top, below, "floor"), floor(exact))
            self.assertEqual(decimals.quotient(top, below, "ceil"), ceil(exact))
            self.assertEqual(decimals.quotient(top, below, "half_even"), round(exact))
            half_away = (floor(abs(exact) + Fraction(1, 2))) * (1 if exact >= 0 else -1)
            self.assertEqual(decimals.quotient(top, below, "half_away"), half_away)


class Sums(unittest.TestCase):
    def test_no_digit_is_lost(self) -> None:
        great = "9" * 6000
        total = decimals.total([Decimal(great), Decimal("0.01"), Decimal("-0.02")])
        self.assertEqual(decimals.text(total), "9" * 5999 + "8.99")

    def test_decimals_stay(self) -> None:
        self.assertEqual(decimals.text(decimals.total([Decimal("1.10"), Decimal("-1.10")])), "0.00")
        self.assertEqual(decimals.text(Decimal("-0.000")), "0.000")
        self.assertEqual(decimals.text(decimals.total([])), "0")
        self.assertEqual(decimals.text(Decimal("1E+3")), "1000")

    def test_a_mean_has_the_decimals_of_the_sum(self) -> None:
        self.assertEqual(
            [decimals.text(decimals.mean(Decimal("-0.25"), 2, mode)) for mode in MODES],
            ["-0.12", "-0.13", "-0.13", "-0.12"],
        )
        self.assertEqual(
            decimals.text(decimals.mean(Decimal("9" * 5000 + ".0"), 9, "floor")), "1" * 5000 + ".0"
        )
