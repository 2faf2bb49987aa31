"""Lines of the program are read as it prints them, and what is no such line is named with its
number.
"""

from decimal import Decimal

from tests.support import Room, the_program
from tilugba import lines
from tilugba.lines import Value
from tilugba.program import Status, Stop

BOOK = b"""portfolio 1; amounts 2; origin 2026-01-05; party A, B; asset EUR;
contract loan = both(pay(EUR, A, B), after(3, scale(2.50, pay(EUR, B, A))));
"""
VALUES = "a,1.50\nb,-0.50\ntotal,1.00\nmean,0.50\nleast,b,-0.50\ngreatest,a,1.50\n"


class Lines(Room):
    def refuses(self, reader, text: str | bytes, said: str) -> None:
        with self.assertRaisesRegex(Stop, said) as caught:
            list(reader(self.file("lines", text)))
        self.assertEqual(caught.exception.status, Status.ROW)

    def test_what_the_program_prints(self) -> None:
        run = the_program().run
        for words in ("flows",), ("settle",):
            payments = list(lines.payments_in(self.file("flows", run(words[0], BOOK).expected())))
            told = [
                (str(it.day), it.payer, it.receiver, it.asset, str(it.amount)) for it in payments
            ]
            self.assertEqual(
                told,
                [("2026-01-05", "A", "B", "EUR", "1.00"), ("2026-01-08", "B", "A", "EUR", "2.50")],
            )
        positions = list(
            lines.positions_in(self.file("positions", run("positions", BOOK).expected()))
        )
        self.assertEqual([str(it.amount) for it in positions], ["-1.00", "1.00", "2.50", "-2.50"])

    def test_values(self) -> None:
        found = lines.values_in(self.file("values", VALUES))
        self.assertEqual(found.text, "a,1.50\nb,-0.50\n")
        self.assertEqual(
            (found.least, found.greatest),
            (Value("b", Decimal("-0.50")), Value("a", Decimal("1.50"))),
        )
        self.assertEqual(
            [str(it) for it in found.numbers()], ["1.50", "-0.50", "1.00", "0.50", "-0.50", "1.50"]
        )

    def test_no_values(self) -> None:
        for text in "", VALUES[:-1], VALUES.split("\n", 2)[2], VALUES.replace(
            "mean", "man"
        ), "fault scenarios 3\n", VALUES + "a,1.50\n", VALUES.replace("1.5", f"{'1' * 5000}.5"):
            self.refuses(lines.values_in, text, "is not what scenarios prints")

    def test_no_payments(self) -> None:
        payment = "loan,2026-01-05,A,B,EUR,1.00\n"
        bad = ["x", "loan,5,A,B,EUR,1.00", "loan,2026-02-30,A,B,EUR,1.00"]
        for line in (f"{it}\n" for it in [*bad, "loan,2026-01-05,A,B,EUR,-1.00"]):
            self.refuses(lines.payments_in, payment + line, "line 2 is no flow line with a date")
        self.refuses(lines.payments_in, b"\xff\n", "it is not UTF-8")

    def test_no_positions(self) -> None:
        self.refuses(lines.positions_in, "0,A,EUR,1.00\n0,B,EUR\n", "line 2 is no position")
        self.refuses(lines.positions_in, "0,A,EUR,1.00", "the last line does not end")
