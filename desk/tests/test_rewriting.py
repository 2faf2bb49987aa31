"""Texts cut into statements with their comments, and put together again."""

import unittest

from tests.texts import examples
from tilugba.texts.grammar import PORTFOLIO
from tilugba.texts.reading import Reading
from tilugba.texts.rewriting import Edit, Piece, behind, pieces_of, rewritten

TEXT = b"""# the book

portfolio 1;
amounts 2;   # cents
party A, B; asset EUR; # both
# of March

contract a = # within
  pay(EUR, A, B); # behind
contract b = zero;contract c = zero
;
# the end"""


class Cutting(unittest.TestCase):
    def test_pieces(self) -> None:
        pieces = pieces_of(Reading(TEXT))
        self.assertEqual(pieces.head, "# the book\n\n")
        self.assertEqual(
            [(it.word, it.name, it.text) for it in pieces.statements],
            [
                ("portfolio", "", "portfolio 1;\n"),
                ("amounts", "", "amounts 2;   # cents\n"),
                ("party", "A", "party A, B;"),
                ("asset", "EUR", " asset EUR; # both\n"),
                (
                    "contract",
                    "a",
                    "# of March\n\ncontract a = # within\n  pay(EUR, A, B); # behind\n",
                ),
                ("contract", "b", "contract b = zero;"),
                ("contract", "c", "contract c = zero\n;\n"),
            ],
        )
        self.assertEqual(pieces.tail, "# the end")

    def test_round_a_term(self) -> None:
        pieces = {it.name: it for it in pieces_of(Reading(TEXT)).statements}
        once = pieces["a"].with_term("after(5, ", ")")
        self.assertEqual(
            once.text, "# of March\n\ncontract a = # within\n  after(5, pay(EUR, A, B)); # behind\n"
        )
        self.assertIn(
            "both(zero, after(5, pay(EUR, A, B)));", once.with_term("both(zero, ", ")").text
        )
        self.assertEqual(pieces["c"].with_term("(", ")").text, "contract c = (zero)\n;\n")

    def test_behind(self) -> None:
        statements = [Piece("party", (), "party A;"), Piece("asset", (), " asset EUR;\n")]
        self.assertEqual(
            [it.text for it in behind(statements, 1, [Piece("party", (), "party B;")])],
            ["party A;\n", "party B;\n", " asset EUR;\n"],
        )
        self.assertEqual(behind(statements, 1, []), statements)

    def test_pieces_are_the_text(self) -> None:
        count = 0
        for example in examples():
            reading = Reading(example.data, example.grammar)
            if reading.fault is None:
                count += 1
                pieces = pieces_of(reading)
                with self.subTest(example=example.name):
                    self.assertEqual(pieces.text.encode("latin-1"), example.data)
                    self.assertEqual(len(pieces.statements), len(reading.segments) - 1)
        self.assertGreater(count, 100)

    def test_a_text_of_declarations_alone(self) -> None:
        pieces = pieces_of(Reading(b"portfolio 1;amounts 2;", PORTFOLIO))
        self.assertEqual([it.text for it in pieces.statements], ["portfolio 1;", "amounts 2;"])


class Edits(unittest.TestCase):
    def test_edits(self) -> None:
        self.assertEqual(
            rewritten("abcdef", [Edit(4, 5, "X"), Edit(0, 1, ""), Edit(2, 2, "--")]), "b--cdXf"
        )
        self.assertEqual(rewritten("abcdef", [Edit(4, 5, "X")], 1, 5), "bcdX")
        self.assertEqual(rewritten("abc", []), "abc")


if __name__ == "__main__":
    unittest.main()
