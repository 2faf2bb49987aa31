"""Diaries: what is paid is what `flows` prints, what is left is what `advance` prints, and what
was read is enough.
"""

import datetime
import random
import unittest
from pathlib import Path

from tests import random_contracts
from tests.support import EXAMPLES, Ran, Room, run_desk, the_program

BOOK = """portfolio 1; amounts 2; origin 2026-01-05; start 2; party A, B; asset EUR;
num FX : 4 in 0.5000 .. 2.0000; num GX : 4 in 0.5000 .. 2.0000; flag F;
contract call = after(3, if (obs(FX, 0) > 1.1750) within 0
  then scale(round(half_even, 2, ((obs(FX, 0) - 1.1750) * 100000.00)), pay(EUR, B, A)) else zero);
contract late = after(1, scale(round(half_even, 2, obs(GX, -3)), pay(EUR, A, B)));
contract mean = after(3,
  scale(div(half_even, 2, acc(s, (s + obs(FX, 0)), 2, 0.0000), 2), pay(EUR, A, B)));
"""
TABLE = """label,day,value
GX,2026-01-05,1.5000
FX,2026-01-09,1.1000
FX,2026-01-10,1.1800
FX,2026-01-10,1.18
F,5,true
"""


class Diaries(Room):
    def diary(self, book: str, table: str, *words: str) -> Ran:
        self.book, self.fix = self.file("book.txt", book), self.file("fix.csv", table)
        return run_desk("diary", self.book, self.fix, *words)

    def lines(self, *words: str) -> list[str]:
        ran = self.diary(BOOK, TABLE, *words)
        self.assertEqual((ran.status, ran.errors), (0, ""))
        return ran.output.splitlines()

    def test_a_contract_step_by_step(self) -> None:
        gain = "round(half_even, 2, ((obs(FX, 0) - 1.1750) * 100000.00))"
        test = f"if (obs(FX, 0) > 1.1750) within 0 then scale({gain}, pay(EUR, B, A)) else zero"
        self.assertEqual(
            self.lines("--to", "2026-01-12", "--contract", "call"),
            [
                f"2026-01-07 call is after(3, {test})",
                "2026-01-10 call reads FX 1.1800",
                "2026-01-10 call pays B A EUR 500.00",
                "2026-01-11 call is zero",
            ],
        )
        days = self.lines("--to", "6", "--contract", "call", "--all")
        self.assertEqual(
            days[1:3],
            [f"2026-01-08 call is after(2, {test})", f"2026-01-09 call is after(1, {test})"],
        )

    def test_rows_of_earlier_days(self) -> None:
        lines = self.lines("--to", "2026-01-11")
        self.assertIn("2026-01-07 late reads GX 1.5000 of 2026-01-05", lines)
        self.assertIn("2026-01-08 late pays A B EUR 1.50", lines)
        reads = [it for it in lines if " mean reads " in it]
        self.assertEqual([it.split()[3:5] for it in reads], [["FX", "1.1000"], ["FX", "1.1800"]])
        self.assertIn("2026-01-10 mean pays A B EUR 1.14", lines)

    def test_faults(self) -> None:
        for table, words, status, said in [
            (TABLE, ["--to", "1"], 11, "1 is before the book's start, 2026-01-07"),
            (
                TABLE,
                ["--to", "9", "--contract", "x"],
                10,
                "there is no contract x; contracts: call, late, mean",
            ),
            ("label,day,value\nGX,0,9\n", ["--to", "9"], 7, "fault row file 2 record 2 bounds"),
            ("label,day,value\nGX,0,1\n", ["--to", "9"], 8, "2026-01-10, call: fault missing FX 5"),
            (TABLE, ["--to", "never"], 2, "never is no day"),
            # It is told at once, and not behind a million days.
            (TABLE, ["--to", "999999999"], 11, "fault day 999999999"),
        ]:
            ran = self.diary(BOOK, table, *words)
            self.assertEqual((ran.status, ran.output, ran.errors.count("\n")), (status, "", 1))
            self.assertIn(said, ran.errors)

    def compared(self, book: str, table: str, to: int, name: str) -> int:
        """A diary beside what the program says of the same days; how many rows were read."""
        program = the_program()
        ran = self.diary(book, table, "--to", str(to))
        self.assertEqual((ran.status, ran.errors), (0, ""), (book, table))
        facts = [line.split(" ", 3) for line in ran.output.splitlines()]
        paid = sorted(
            f"{who},{day},{','.join(rest.split())}"
            for day, who, word, rest in facts
            if word == "pays"
        )
        flows = (
            program.run("flows", self.book, self.fix, "--until", str(to - 1)).expected().decode()
        )
        self.assertEqual(paid, sorted(flows.splitlines()), (book, table))
        # What is left pays what the book pays from then on, as far as it can be told.
        left = {who: rest for _, who, word, rest in facts if word == "is"}
        rest = program.run("advance", self.book, self.fix, "--to", str(to)).expected().decode()
        self.assertEqual(len(left), rest.count("\ncontract ") + rest.startswith("contract "))
        # The rows that were read are enough, and a diary over them alone is the same.
        rows = {
            (rest.split()[0], rest.split()[-1] if " of " in rest else day)
            for day, _, word, rest in facts
            if word == "reads"
        }
        few = [
            line for line in table.splitlines()[1:] if (line.split(",")[0], self.day(line)) in rows
        ]
        again = self.diary(
            book, "label,day,value\n" + "".join(f"{it}\n" for it in few), "--to", str(to)
        )
        self.assertEqual(again.output, ran.output, (book, few))
        return len(rows)

    def day(self, line: str) -> str:
        day = line.split(",")[1]
        is_number = day.lstrip("-").isdigit()
        return str(datetime.date(2026, 1, 5) + datetime.timedelta(int(day))) if is_number else day

    def test_random_contracts(self) -> None:
        chance, read = random.Random(4), 0
        for _ in range(12):
            book = random_contracts.book(chance, 1)
            table = random_contracts.fixings(chance, 16, 1)
            read += self.compared(book, table, chance.randrange(5, 14), "c0")
        self.assertGreater(read, 30)

    def test_an_example(self) -> None:
        folder = EXAMPLES / "desk_month"
        book, table = (Path(folder / name).read_text() for name in ("book.txt", "fixings.csv"))
        ran = self.diary(book, table, "--to", "2026-02-02", "--contract", "touch")
        last = ran.output.splitlines()[-1]
        wanted = (
            the_program()
            .run("advance", self.book, self.fix, "--to", "2026-02-02")
            .expected()
            .decode()
        )
        self.assertIn(f"contract touch = {last.split(' is ')[1]};", wanted)


if __name__ == "__main__":
    unittest.main()
