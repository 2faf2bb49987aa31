"""The list of places that a book asks for, and that the program asks for no other, on random books.
"""

from __future__ import annotations

import os
import unittest
from concurrent.futures import ProcessPoolExecutor
from dataclasses import dataclass, field
from typing import Any

from tests.random_books import Place, RandomBook, random_books
from tests.support import Ran, Room, run_desk, the_program
from tilugba.needs.listing import needs_of
from tilugba.program import MissingFixing
from tilugba.texts.grammar import PORTFOLIO
from tilugba.texts.reading import Reading

HEAD = """portfolio 1;
amounts 2;
origin 2026-01-05;
party A, B;
asset EUR;
num FX : 4 in 0.5000 .. 2.0000;
num R : 4 in 0.0000 .. 0.2000;
flag F;
"""
HEADER = "label,day,date,weekday,holiday,sure,contracts\n"
PAYS = "scale(1.00, pay(EUR, A, B))"
RATE = "round(floor, 2, obs(R, 0))"
PAYS_RATE = f"scale({RATE}, pay(EUR, A, B))"
LATEST = 25
BOOKS, TRIES, LEFT_OUT = int(os.environ.get("TILUGBA_BOOKS", "160")), 3, 4


def pays(expression: str, days: int = 0) -> str:
    """A contract that pays what an expression comes to, so many days later."""
    return f"after({days}, scale(round(floor, 2, {expression}), pay(EUR, A, B)))"


class Needs(Room):
    def needs(self, text: str, rows: str, *words: str, until: str = "20") -> Ran:
        files = [self.file("book.txt", text), self.file("fix.csv", "label,day,value\n" + rows)]
        ran = run_desk("needs", *files, "--until", until, *words)
        return Ran(
            ran.status, ran.output.removeprefix(HEADER), ran.errors.replace(f"{self.folder}/", "")
        )

    def listed(self, contract: str, rows: str = "", until: str = "20") -> list[str]:
        """The label, the day and whether it is sure of each row."""
        ran = self.needs(f"{HEAD}contract c = {contract};", rows, until=until)
        self.assertEqual((ran.status, ran.errors), (0, ""))
        fields = [line.split(",") for line in ran.output.splitlines()]
        return [f"{label} {day} {sure}" for label, day, _, _, _, sure, _ in fields]

    def test_rows(self) -> None:
        loan = f"contract loan = let r = obs(R, 0) in {pays('r', 365)};\n"
        call = f"contract call = after(5, if (obs(FX, 0) > 1) within 0 then {PAYS} else zero);\n"
        other = f"contract other = after(6, if (obs(FX, -1) > 1) within 0 then {PAYS} else zero);\n"
        ran = self.needs(HEAD + call + loan + other, "")
        self.assertEqual(
            ran.output,
            "R,0,2026-01-05,Monday,,yes,loan\nFX,5,2026-01-10,Saturday,,yes,call other\n",
        )
        bare = HEAD.replace("origin 2026-01-05;\n", "start 7;\n") + call
        self.assertEqual(self.needs(bare, "").output, "FX,12,,,,yes,call\n")
        holidays = str(self.file("holidays.txt", "2026-01-05 a day\n"))
        ran = self.needs(HEAD + call + loan, "", "--calendar", holidays)
        self.assertEqual([line.split(",")[4] for line in ran.output.splitlines()], ["yes", "yes"])
        ran = self.needs(HEAD + call.replace("(5", "(4"), "", "--calendar", holidays)
        self.assertEqual(ran.output, "FX,4,2026-01-09,Friday,no,yes,call\n")

    def test_nothing_is_missing(self) -> None:
        self.assertEqual(self.needs(HEAD + f"contract c = {PAYS};", ""), Ran(0, "", ""))

    def test_the_last_day(self) -> None:
        touch = f"if (obs(FX, 0) > 1.5) within 300 then {PAYS} else zero"
        self.assertEqual(self.listed(touch, until="1"), ["FX 0 yes", "FX 1 if"])
        self.assertEqual(self.listed(touch, "FX,0,1\nFX,1,1\n", until="2026-01-07"), ["FX 2 yes"])
        self.assertEqual(self.listed(touch, "FX,0,1\nFX,1,1\n", until="1"), [])

    def test_what_fixings_decide(self) -> None:
        branches = f"if obs(F, 0) within 0 then {PAYS} else after(1, {PAYS_RATE})"
        factor = f"after(3, scale(if((obs(FX, -3) > 1), 0.00, {RATE}), pay(EUR, A, B)))"
        both = f"if (obs(F, 0) & (obs(FX, 0) > 1)) within 1 then {PAYS} else zero"
        for contract, rows, wanted in [
            (branches, "F,0,true\nFX,0,1\n", []),
            (branches, "F,0,false\n", ["R 1 yes"]),
            (branches, "", ["F 0 yes", "R 1 if"]),
            (factor, "FX,0,1\n", ["R 3 yes"]),
            (factor, "FX,0,1.1\n", []),
            (factor, "", ["FX 0 yes", "R 3 if"]),
            (both, "F,0,false\n", ["F 1 yes", "FX 1 if"]),
            (both.replace("&", "|"), "F,0,false\n", ["FX 0 yes", "F 1 if", "FX 1 if"]),
        ]:
            with self.subTest(contract=contract, rows=rows):
                self.assertEqual(self.listed(contract, rows), wanted)

    def test_a_name_is_read_where_it_is_used(self) -> None:
        unused = f"let x = {RATE} in if obs(F, 0) within 2 then scale(x, pay(EUR, A, B)) else zero"
        self.assertEqual(self.listed(unused, "F,0,true\n"), ["R 0 yes"])
        self.assertEqual(self.listed(unused, "F,0,false\nF,1,false\n"), ["R 0 if", "F 2 yes"])
        self.assertEqual(self.listed(unused, "F,0,false\nF,1,false\nF,2,false\nFX,9,1\n"), [])

    def test_a_factor_is_read_where_its_body_pays(self) -> None:
        factor = (
            "scale(round(floor, 2, obs(R, 0)), if obs(F, 0) within 1 then pay(EUR, A, B) else zero)"
        )
        self.assertEqual(self.listed(factor), ["F 0 yes", "R 0 if", "F 1 if"])
        self.assertEqual(self.listed(factor, "F,0,true\n"), ["R 0 yes"])
        self.assertEqual(self.listed("scale(round(floor, 2, obs(R, 0)), pay(EUR, A, A))"), [])

    def test_choices_in_an_accumulator(self) -> None:
        gated = pays("acc(x, if((x > 1), x, (x + obs(FX, 0))), 3, 0.0000)", 3)
        self.assertEqual(self.listed(gated), ["FX 1 yes", "FX 2 if", "FX 3 if"])
        self.assertEqual(self.listed(gated, "FX,1,0.9\n"), ["FX 2 yes", "FX 3 if"])
        self.assertEqual(self.listed(gated, "FX,1,1.1\n"), [])
        looks_back = pays("acc(x, if(obs(F, 0), (x + obs(FX, 0)), x), 2, 0.0000)")
        self.assertEqual(
            self.listed(looks_back, "F,-1,true\n"), ["FX -1 yes", "F 0 yes", "FX 0 if"]
        )

    def test_a_choice_that_waits_for_a_later_day(self) -> None:
        later = f"let x = if((obs(FX, 9) > 1), obs(R, 0), 0.0000) in {pays('x', 9)}"
        self.assertEqual(self.listed(later, "FX,9,1.2\n"), ["R 0 yes"])
        self.assertEqual(self.listed(later, "FX,9,0.9\n"), [])
        names = "let x = obs(FX, 0) in let y = (x + obs(FX, 1)) in let x = 1 in after(2, "
        names += f"if (y > 2) within 0 then {PAYS_RATE} else {PAYS})"
        self.assertEqual(self.listed(names, "FX,0,1.0\nFX,1,1.1\n"), ["R 2 yes"])
        self.assertEqual(self.listed(names, "FX,0,1.0\nFX,1,1.0\n"), [])

    def test_choices_of_the_deepest_contracts(self) -> None:
        """No probe is refused: the contract itself is as deep as one may be."""
        test = f"after(2, if {{}} within 0 then {PAYS_RATE} else zero)"
        for first, further, last in [
            ("(obs(FX, 2) > 1)", "(x{} & true)", test.format("x{}")),
            ("(obs(FX, 2) > 1)", "not(not(x{}))", test.format("not(not(x{}))")),
            (
                "if((obs(FX, 0) > 1), 1, obs(FX, 0))",
                "(x{} + 0)",
                f"if (x{{}} > 0.9) within 0 then {PAYS_RATE} else zero",
            ),
            (
                "obs(FX, 0)",
                "(x{} + 0)",
                f"after(2, scale(if((x{{}} > 0.9), {RATE}, 1.00), pay(EUR, A, B)))",
            ),
            (
                "obs(FX, 2)",
                "(x{} + 0)",
                pays("acc(y, if((y > x{}), y, (y + obs(R, 0))), 1, 2.0000)", 2),
            ),
            (
                "(obs(FX, 2) > 1)",
                "(x{} & true)",
                test.format("acc(y, if(y, y, (y | obs(F, 0))), 2, x{})"),
            ),
        ]:
            contract = self.deepest(first, further, last)
            rows = "FX,0,1.2\nFX,2,1.2\nF,1,true\nF,2,true\n"
            with self.subTest(last=last):
                self.assertEqual(self.listed(contract, rows)[-1:], self.wanted(last))

    def wanted(self, last: str) -> list[str]:
        return [] if "acc(y, if((y > " in last else [f"R {2 if 'after' in last else 0} yes"]

    def deepest(self, first: str, further: str, last: str) -> str:
        """The contract with as many names one in another as the program takes."""
        for count in range(200, 0, -1):
            lets = [
                f"let x0 = {first} in ",
                *(f"let x{it} = {further.format(it - 1)} in " for it in range(1, count)),
            ]
            contract = "".join(lets) + last.format(count - 1)
            if the_program().run("check", f"{HEAD}contract c = {contract};".encode()).status == 0:
                return contract
        raise AssertionError(last)

    def test_choices_on_the_farthest_days(self) -> None:
        far = f"after(99990, if (obs(FX, 0) > 1) within 9 then after(1, {PAYS}) else zero)"
        self.assertEqual(
            self.listed(far, "FX,99990,0.9\nFX,99991,0.9\n", until="99992"), ["FX 99992 yes"]
        )
        back = f"after(1, if (obs(FX, -999998) > 1) within 0 then {PAYS_RATE} else zero)"
        self.assertEqual(self.listed(back, "FX,-999997,1.2\n"), ["R 1 yes"])
        summed = pays("acc(x, if((x > 1), x, (x + obs(FX, -99999))), 2, 0.0000)", 1)
        self.assertEqual(self.listed(summed, "FX,-99999,1.2\n"), [])
        self.assertEqual(self.listed(summed, "FX,-99999,0.9\n"), ["FX -99998 yes"])

    def test_faults(self) -> None:
        for text, rows, until, status, said in [
            (HEAD + "contract c = ;", "", "5", 6, "book.txt:9:14: syntax\n"),
            (
                HEAD + "contract c = scale(0.001, pay(EUR, A, B));",
                "",
                "5",
                1,
                "book.txt:9:14: c is refused by the rule scale\n",
            ),
            (HEAD, "GX,0,1\n", "5", 7, "fix.csv:2:1: label (record 2)\n"),
            (HEAD, "", "x", 2, "tilugba-desk needs: --until x is neither a number of days nor"),
            (
                HEAD,
                "",
                "2026-01-04",
                11,
                "tilugba-desk needs: --until 2026-01-04 is out of range: from 2026-01-05 (day 0, ",
            ),
            (
                HEAD.replace("origin 2026-01-05;\n", ""),
                "",
                "2026-01-04",
                11,
                "tilugba-desk needs: --until 2026-01-04 is a date, and",
            ),
        ]:
            with self.subTest(said=said):
                ran = self.needs(text, rows, until=until)
                self.assertEqual((ran.status, ran.output), (status, ""))
                self.assertTrue(ran.errors.startswith(said), ran.errors)


@dataclass
class Tried:
    """What was tried on random books."""

    books: int = 0
    runs: int = 0
    rows: int = 0
    sure: int = 0
    left_out: int = 0
    choices: int = 0
    faults: list[str] = field(default_factory=list)


def some_fixed(book: RandomBook) -> dict[Place, Any]:
    """A part of all that the book reads: most of what is early, and some of what is late."""
    dice = book.dice
    first, late = dice.one((0, 60, 90, 98, 100)), dice.one((0, 10, 50, 95))
    day = book.decls.start + dice.below(LATEST)
    return {
        place: value
        for place, value in book.world.items()
        if dice.chance(first if place[1] < day else late)
    }


def ends_with(book: RandomBook, table: dict[Place, Any], until: int) -> Place | None:
    """Where a run ends that gets a random value for each place behind a day: the place that is
    missing, or nothing.
    """
    program = the_program()
    text = book.text.encode()
    while True:
        fault = program.run("flows", text, book.table(table)).fault
        if fault is None:
            return None
        assert isinstance(fault.cause, MissingFixing), fault
        place = fault.cause.label, fault.cause.day
        if place[1] <= until:
            return place
        table[place] = book.some_value(place[0])


def try_book(seed: int, book: RandomBook, tried: Tried) -> None:
    fixed, until = some_fixed(book), book.decls.start + book.dice.below(LATEST)
    needs = needs_of(
        Reading(book.text.encode(), PORTFOLIO), book.table(fixed), until, the_program()
    )
    listed = {(it.label, it.day): it.is_sure for it in needs}
    tried.books += 1
    tried.rows += len(listed)
    tried.sure += sum(listed.values())
    for _ in range(TRIES):
        table = fixed | {place: book.some_value(place[0]) for place in listed}
        tried.runs += 1
        if missing := ends_with(book, dict(table), until):
            tried.faults.append(
                f"seed {seed}: {missing} is missing up to {until}, and is not listed: {book.text}"
            )
        sure = [place for place, is_sure in listed.items() if is_sure]
        for _ in range(min(LEFT_OUT, len(sure))):
            place = book.dice.one(sure)
            found = ends_with(
                book, {it: value for it, value in table.items() if it != place}, until
            )
            tried.left_out += 1
            if found != place:
                tried.faults.append(
                    f"seed {seed}: {place} is sure up to {until}; without it {found} is missing: "
                    f"{book.text}"
                )


def try_books(part: int, parts: int) -> Tried:
    tried = Tried()
    for seed, book in random_books(range(1 + part, BOOKS + 1, parts)):
        try_book(seed, book, tried)
    return tried


class RandomBooks(unittest.TestCase):
    def test_no_other_place_is_asked_for(self) -> None:
        """Over random values of the listed places no run misses another one; and a sure one that is
        left out is what is missing.
        """
        parts = len(os.sched_getaffinity(0))
        with ProcessPoolExecutor(parts) as pool:
            tried = list(pool.map(try_books, range(parts), [parts] * parts))
        self.assertEqual([fault for it in tried for fault in it.faults], [])
        self.assertGreater(sum(it.runs for it in tried), BOOKS)
        self.assertGreater(sum(it.left_out for it in tried), BOOKS)
        if os.environ.get("TILUGBA_BOOKS"):
            print(
                {
                    name: sum(getattr(it, name) for it in tried)
                    for name in ("books", "runs", "rows", "sure", "left_out")
                }
            )


if __name__ == "__main__":
    unittest.main()
