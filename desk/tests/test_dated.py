"""Dates in a portfolio: on random books the numbers are those that the dates were made of."""

from __future__ import annotations

import os
import re
import unittest
from dataclasses import dataclass, field
from datetime import date
from typing import Any

from tests.random_books import RandomBook, makers, random_books
from tests.support import Ran, Room, run_desk, the_program

model = makers.model
HEAD = """portfolio 2;
amounts 2;
origin 2026-01-05;  # day 0
start 4;
party A, B;
asset EUR;
num FX : 4 in 0.5000 .. 2.0000;
template T = 30;
"""
PAY = "pay(EUR, A, B)"
BOOKS = int(os.environ.get("TILUGBA_DATED", "150"))
MARK = re.compile("\x01(.*?)\x02(.*?)\x03")


class Dated(Room):
    def dated(self, text: str, *words: str) -> Ran:
        ran = run_desk("dated", self.file("book.txt", text), *words)
        return Ran(ran.status, ran.output, ran.errors.replace(f"{self.folder}/", ""))

    def contract(self, written: str, *words: str) -> str:
        """What a contract is printed as."""
        ran = self.dated(f"{HEAD}contract c = {written};\n", *words)
        self.assertEqual((ran.status, ran.errors), (0, ""))
        self.assertTrue(ran.output.startswith(HEAD))
        return ran.output.removeprefix(HEAD).removeprefix("contract c = ").removesuffix(";\n")

    def test_dates_count_from_where_they_stand(self) -> None:
        test = "(obs(FX, {}) > 1)"
        for written, wanted in [
            (f"after(2026-01-09, {PAY})", f"after(0, {PAY})"),
            (f"after(2299-10-25, {PAY})", f"after(100000, {PAY})"),
            (f"after(2026-06-30, after(2026-07-02, {PAY}))", f"after(172, after(2, {PAY}))"),
            (f"after(10, after(2026-01-31, {PAY}))", f"after(10, after(12, {PAY}))"),
            (f"scale(obs(FX, 2026-01-05), {PAY})", f"scale(obs(FX, -4), {PAY})"),
            (
                f"let x = obs(FX, 2026-01-09) in after(2026-01-10, scale(x, {PAY}))",
                f"let x = obs(FX, 0) in after(1, scale(x, {PAY}))",
            ),
            (
                f"if {test.format('2026-01-08')} within 2026-01-09 then {PAY} else zero",
                f"if {test.format(-1)} within 0 then {PAY} else zero",
            ),
            (
                f"if {test.format(0)} within 2026-01-31 then zero else after(2026-02-02, {PAY})",
                f"if {test.format(0)} within 22 then zero else after(2, {PAY})",
            ),
            (
                f"scale(acc(x, (x + obs(FX, 0)), 3, obs(FX, 2026-01-05)), {PAY})",
                f"scale(acc(x, (x + obs(FX, 0)), 3, obs(FX, -1)), {PAY})",
            ),
            (f"after ( # é\n 2026-06-30\t, # x\n{PAY} )", f"after ( # é\n 172\t, # x\n{PAY} )"),
        ]:
            with self.subTest(written=written):
                self.assertEqual(self.contract(written), wanted)

    def test_templates_count_from_the_start(self) -> None:
        text = HEAD.replace("T = 30", "T = 2026-08-03") + f"contract c = after(T, {PAY});\n"
        self.assertEqual(self.dated(text), Ran(0, text.replace("2026-08-03", "206"), ""))

    def test_a_text_without_dates_stays(self) -> None:
        text = HEAD + f"contract c = after(T + 3, {PAY});\n# the end"
        self.assertEqual(self.dated(text), Ran(0, text, ""))

    def test_dates_of_after_are_moved(self) -> None:
        closed = str(self.file("closed.txt", "2026-06-29\n"))
        test = "(obs(FX, 2026-06-27) > 1)"
        written = f"after(2026-06-27, if {test} within 2026-06-28 then {PAY} else zero)"
        unmoved = f"after(169, if (obs(FX, 0) > 1) within 1 then {PAY} else zero)"
        self.assertEqual(
            self.contract(written.replace("obs(FX, 2026-06-27)", "obs(FX, 0)")), unmoved
        )
        later = written.replace("2026-06-28", "2026-06-30")
        moved = f"after(172, if (obs(FX, -3) > 1) within 0 then {PAY} else zero)"
        self.assertEqual(self.contract(later, "--roll", "following", "--calendar", closed), moved)
        ran = self.dated(f"{HEAD}contract c = {written};", "--roll", "following")
        said = "2026-06-28 is before 2026-06-29 (day 175, a Monday), on which this part begins"
        self.assertIn(said, ran.errors)
        ran = self.dated(
            f"{HEAD}contract c = after(2026-01-10, after(2026-01-11, {PAY}));",
            "--roll",
            "preceding",
        )
        self.assertEqual(ran.output.splitlines()[-1], f"contract c = after(0, after(0, {PAY}));")
        saturday = HEAD.replace("start 4", "start 5") + f"contract c = after(2026-01-10, {PAY});"
        said = "2026-01-10, moved to 2026-01-09, is before 2026-01-10 (day 5, a Saturday), on which"
        self.assertIn(said, self.dated(saturday, "--roll", "preceding").errors)

    def test_faults_have_their_places(self) -> None:
        test = "(obs(FX, 0) > 1)"
        for written, said in [
            (
                f"after(2026-01-08, {PAY})",
                "2026-01-08 is before 2026-01-09 (day 4, a Friday), on which this part begins",
            ),
            (
                f"after(9, after(2026-01-17, {PAY}))",
                "2026-01-17 is before 2026-01-18 (day 13, a Sunday), on",
            ),
            (f"if {test} within 2026-01-08 then zero else zero", "2026-01-08 is before 2026-01-09"),
            (
                f"scale(obs(FX, 2026-01-10), {PAY})",
                "2026-01-10 is after 2026-01-09 (day 4, a Friday), on which this is looked at",
            ),
            (
                f"if {test} within 5 then after(2026-03-01, zero) else zero",
                "no date may be in a `then` branch, which begins on",
            ),
            (
                f"if {test} within 0 then zero else "
                f"if {test} within 1 then after(2026-03-01, zero) else zero",
                "no date may be in a `then`",
            ),
            (
                "if (obs(FX, 2026-01-05) > 1) within 5 then zero else zero",
                "no date may be in a test that is looked at on several",
            ),
            (
                f"scale(acc(x, (x + obs(FX, 2026-01-05)), 3, 0.0000), {PAY})",
                "no date may be in the body of an accumulator",
            ),
            (
                f"after(T, after(2026-06-30, {PAY}))",
                "no date may be behind a delay by a template, which may be set",
            ),
            (
                f"after(T + 2, scale(obs(FX, 2026-01-05), {PAY}))",
                "no date may be behind a delay by a template",
            ),
            (
                f"if {test} within T then zero else after(2026-06-30, zero)",
                "no date may be behind a delay by a template",
            ),
            (f"after(2299-10-26, {PAY})", "2299-10-26 is more than 100,000 days after 2026-01-09"),
        ]:
            with self.subTest(said=said):
                line = f"contract c = {written};"
                ran = self.dated(HEAD + line)
                column = line.index(re.findall(r"[0-9]{4}-[0-9]{2}-[0-9]{2}", line)[-1]) + 1
                self.assertEqual((ran.status, ran.output), (6, ""))
                first, *shown, why = ran.errors.splitlines()
                self.assertEqual(first, f"book.txt:9:{column}: date")
                self.assertIn(said, why)

    def test_further_faults(self) -> None:
        bare = HEAD.replace("origin 2026-01-05;  # day 0\n", "")
        for text, first in [
            (bare + f"contract c = after(2026-06-30, {PAY});", "book.txt:8:20: date"),
            (HEAD.replace("T = 30", "T = 2026-01-08"), "book.txt:8:14: date"),
            (HEAD + f"contract c = after(2026-06-31, {PAY});", "book.txt:9:20: date"),
            (HEAD + f"contract c = after(2026-06-30 + T, {PAY});", "book.txt:9:31: syntax"),
            (HEAD + f"contract c = after(T + 2026-06-30, {PAY});", "book.txt:9:24: syntax"),
            (
                HEAD + f"contract c = scale(acc(x, x, 2026-01-05, 1), {PAY});",
                "book.txt:9:30: syntax",
            ),
            (HEAD.replace("start 4", "start 2026-01-09"), "book.txt:4:7: syntax"),
            (HEAD + f"contract c = after(, {PAY});", "book.txt:9:20: syntax"),
        ]:
            with self.subTest(text=text):
                ran = self.dated(text)
                self.assertEqual((ran.status, ran.output), (6, ""))
                self.assertEqual(ran.errors.splitlines()[0], first)
        self.assertIn("a date YYYY-MM-DD", self.dated(HEAD + "contract c = after(, zero);").errors)
        self.assertEqual(run_desk("dated", self.folder / "none").status, 3)


# ---- random books


@dataclass(frozen=True)
class Mark:
    """A number of days, and the date that may stand in its place."""

    number: int
    date: str

    def __str__(self) -> str:
        return f"\x01{self.number}\x02{self.date}\x03"


@dataclass
class Marker:
    """Puts dates into random contracts, wherever the day of a part is known."""

    book: RandomBook
    dates: int = field(default=0)

    def mark(self, number: int, day: int | None) -> Any:
        """A number of days from a day on, and mostly its date."""
        if day is None or self.book.dice.chance(25):
            return number
        self.dates += 1
        return Mark(
            number, date.fromordinal(self.book.decls.origin.toordinal() + day + number).isoformat()
        )

    def term(self, term: Any, day: int | None) -> Any:
        """The term that stands on a day, if that is known."""
        of, days = term.of, [day] * len(term.parts)
        if term.op in ("after", "within"):
            behind = day + of if day is not None and isinstance(of, int) else None
            days = [behind] if term.op == "after" else [day if of == 0 else None, None, behind]
            of = self.mark(of, day) if isinstance(of, int) else of
        elif term.op == "acc":
            days = [None, None if day is None else day - of]
        elif term.op == "obs" and of[1] <= 0:
            of = of[0], self.mark(of[1], day)
        return term.with_parts([self.term(*it) for it in zip(term.parts, days)], of)

    def text(self) -> str:
        """The text of the book, with both in each place."""
        decls = self.book.decls
        decls.origin = decls.origin or date(2024, 1, 15)
        named = [(name, self.term(c, decls.start)) for name, c in self.book.named]
        decls.templates = [(name, self.mark(days, decls.start)) for name, days in decls.templates]
        return makers.portfolio_text(self.book.dice, decls, named)


class RandomBooks(Room):
    def test_numbers_are_those_that_the_dates_were_made_of(self) -> None:
        """Byte by byte, with comments and blanks; and the program reads the book as the one with
        numbers.
        """
        dates = 0
        for seed, book in random_books(range(1, BOOKS + 1)):
            marker = Marker(book)
            text = marker.text()
            numbers, written = MARK.sub(r"\1", text), MARK.sub(r"\2", text)
            ran = run_desk("dated", self.file("book.txt", written))
            with self.subTest(seed=seed):
                self.assertEqual(ran, Ran(0, numbers, ""))
                canonical = the_program().run("migrate", ran.output.encode()).expected().decode()
                book.decls.templates = list(book.decls.days.items())
                self.assertEqual(canonical, model.migrated_text(book.decls, book.named))
            dates += marker.dates
        self.assertGreater(dates, 2 * BOOKS)
        if "TILUGBA_DATED" in os.environ:
            print(f"{BOOKS} books with {dates} dates")


if __name__ == "__main__":
    unittest.main()
