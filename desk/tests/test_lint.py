"""Warnings of `lint`, and that each is told at its place."""

import unittest

from tests.support import CASES, EXAMPLES, Ran, Room, run_desk

HEAD = """portfolio 1;
amounts 2;
origin 2026-01-05;
party A, B;
asset EUR;
num FX : 4 in 0.5000 .. 2.0000;
"""
USES = "contract uses = scale(round(half_even, 2, obs(FX, 0)), pay(EUR, A, B));\n"


class Lint(Room):
    def lint(self, text: str, rows: str | None = None, *words: str) -> Ran:
        files = [self.file("book.txt", text)]
        if rows is not None:
            files.append(self.file("fix.csv", "label,day,value\n" + rows))
        ran = run_desk("lint", *files, *words)
        return Ran(
            ran.status,
            ran.output.replace(f"{self.folder}/", ""),
            ran.errors.replace(f"{self.folder}/", ""),
        )

    def test_nothing_to_warn_of(self) -> None:
        self.assertEqual(self.lint(HEAD + USES, "FX,0,1.1\n"), Ran(0, "", ""))

    def test_warnings_of_a_book(self) -> None:
        for text, said in [
            (
                HEAD + USES + "contract c = after(5, pay(EUR, A, B));",
                "book.txt:8:23: weekend: c pays on 2026-01-10, a Saturday",
            ),
            (
                f"{HEAD}{USES}"
                "contract c = after(7, scale(round(floor, 2, obs(FX, -1)), pay(EUR, A, B)));",
                "book.txt:8:45: weekend: c observes FX on 2026-01-11, a Sunday",
            ),
            (
                HEAD + USES + "contract c = both(pay(EUR, A, B), pay(EUR, B, B));",
                "book.txt:8:35: itself: B pays itself",
            ),
            (HEAD + USES + "contract c = zero;", "book.txt:8:10: zero: c is zero"),
            (
                HEAD + USES + "contract c = scale(0.00, pay(EUR, A, B));",
                "book.txt:8:10: nothing: c never pays anything: its total is 0",
            ),
            (
                HEAD.replace("A, B", "A, B, C") + USES,
                "book.txt:4:13: unused: no contract has the party C",
            ),
            (
                HEAD.replace("EUR", "EUR, USD") + USES,
                "book.txt:5:12: unused: no contract has the asset USD",
            ),
            (HEAD + "flag F;\n" + USES, "book.txt:7:6: unused: no contract has the label F"),
            (
                HEAD + "template T = 3;\n" + USES,
                "book.txt:7:10: unused: no contract has the template T",
            ),
            (
                HEAD + USES + "contract c = let x = 1 in pay(EUR, A, B);",
                "book.txt:8:18: unused: nothing uses x, which `let` binds",
            ),
        ]:  # fmt: skip
            with self.subTest(text=text):
                ran = self.lint(text)
                self.assertEqual(ran.status, 1)
                self.assertTrue(
                    any(line.startswith(said) for line in ran.output.splitlines()), ran.output
                )
                self.assertEqual(len(ran.output.splitlines()), 1)

    def test_days_count_from_the_start(self) -> None:
        ran = self.lint(
            HEAD.replace("party", "start 5;\nparty")
            + "contract c = scale(round(floor, 2, obs(FX, 0)), pay(EUR, A, B));"
        )
        self.assertIn("c pays on 2026-01-10, a Saturday", ran.output)

    def test_days_that_may_be_several_are_passed_over(self) -> None:
        ran = self.lint(
            HEAD + "contract c = if (obs(FX, 0) > 1) within 30 then pay(EUR, A, B) else zero;"
        )
        self.assertEqual(ran.output, "")
        # Also those of which the first is closed.
        ran = self.lint(
            HEAD
            + "contract c = after(5, "
            + "if (obs(FX, 0) > 1) within 30 then pay(EUR, A, B) else zero);"
        )
        self.assertEqual(ran.output, "")
        bare = (
            HEAD.replace("origin 2026-01-05;\n", "")
            + USES
            + "contract c = after(5, pay(EUR, A, B));"
        )
        self.assertEqual(self.lint(bare).output, "")

    def test_holidays(self) -> None:
        holidays = self.file("holidays.txt", "2026-01-05 a day\n")
        ran = self.lint(HEAD + USES, None, "--holidays", str(holidays))
        self.assertIn("book.txt:7:56: holiday: uses pays on 2026-01-05, a holiday", ran.output)

    def test_warnings_of_a_table(self) -> None:
        wide = HEAD.replace("0.5000 .. 2.0000", "0.5000 .. 500.0000")
        for text, rows, said in [
            (
                wide + USES,
                "FX,0,1.1\nFX,1,1.2\n",
                "book.txt:6:5: bounds: FX may be from 0.5000 to 500.0000",
            ),
            (
                HEAD + "flag F;\n" + USES,
                "FX,0,1.1\nF,0,true\n",
                "fix.csv:3:1: unread: no contract reads F",
            ),
            (
                HEAD + USES,
                "FX,0,1.1\nFX,46027,1.1\n",
                "fix.csv:3:4: day: day 46027 is 2026-01-05 as spreadsheets number days",
            ),
            (
                HEAD + USES,
                "FX,0,1.1\nFX,20000,1.1\n",
                "fix.csv:3:4: day: day 20000 is far from all days that contracts read",
            ),
        ]:
            with self.subTest(rows=rows):
                self.assertIn(said, self.lint(text, rows).output)
        # Bounds a hundred times as far out as the table are told, and nearer ones are not.
        self.assertIn("bounds: FX may be", self.lint(wide + USES, "FX,0,5\n").output)
        self.assertEqual(self.lint(wide + USES, "FX,0,5.0001\n").output, "")

    def test_a_label_is_told_once(self) -> None:
        ran = self.lint(HEAD + "flag F;\n" + USES, "FX,0,1.1\nF,0,true\nF,1,true\n")
        self.assertEqual(ran.output.count("unread"), 1, ran.output)

    def test_a_day_is_far_from_those_of_all_contracts(self) -> None:
        later = "contract later = after(20000, " + USES.partition("= ")[2].replace(";", ");")
        ran = self.lint(HEAD + USES + later, "FX,0,1.1\nFX,20000,1.1\n")
        self.assertNotIn("far from all days", ran.output)

    def test_faults_are_told_as_by_explain(self) -> None:
        ran = self.lint(HEAD + "contract c = ;")
        self.assertEqual((ran.status, ran.output), (6, ""))
        self.assertTrue(ran.errors.startswith("book.txt:7:14: syntax\n"))
        ran = self.lint(HEAD + USES, "GX,0,1\n")
        self.assertEqual(ran.status, 7)
        self.assertTrue(ran.errors.startswith("fix.csv:2:1: label (record 2)\n"))
        self.assertEqual(run_desk("lint", self.folder / "none").status, 3)

    def test_all_example_books(self) -> None:
        books = sorted(it for folder in (CASES, EXAMPLES) for it in folder.glob("*/book.txt"))
        self.assertGreater(len(books), 10)
        for book in books:
            ran = run_desk("lint", book)
            with self.subTest(book=book):
                self.assertIn(ran.status, (0, 1, 6))
                self.assertNotIn("should not happen", ran.errors)


if __name__ == "__main__":
    unittest.main()
