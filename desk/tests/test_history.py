"""Histories: each value is the program's over the whole table, sums are those of `value-book`,
and a stop changes nothing.
"""

import os
import random
import signal
import subprocess
import time
import unittest
from decimal import Decimal
from pathlib import Path

from tests import random_contracts
from tests.member import Member
from tests.support import DESK, Ran, Room, run_desk, the_program
from tilugba import tables
from tilugba.days import day_of
from tilugba.engines import Runs
from tilugba.histories.deals import read_book
from tilugba.histories.sums import names
from tilugba.program import Program

FIRST, LAST, TO = "2026-01-05", "2026-01-09", "2028-01-01"
SMALL = Member(contracts=12, parties=3, assets=3, days=6)
BOOK = """portfolio 1; amounts 2; origin 2026-01-05; party A, B, C; asset EUR;
num FX : 4 in 0.5000 .. 2.0000; num GX : 4 in 0.5000 .. 2.0000;
contract f = after(3, scale(round(half_even, 2, (obs(FX, 0) * 100.00)), pay(EUR, B, A)));
contract g = after(3, both(scale(round(half_even, 2, obs(GX, 0)), pay(EUR, A, B)), pay(EUR, C, B)));
contract old = zero;
contract own = pay(EUR, C, C);
"""
TABLE = "label,day,value\nFX,2026-01-05,1.1000\nFX,2026-01-07,1.2000\nGX,0,1.5000\n"
CURVE = "offset,factor\n0,1\n2,0.5\n"
# A factor of its own for each day.
STEPS = "offset,factor\n" + "".join(f"{day},{1 - day / 100:.2f}\n" for day in range(60))


class Books(Room):
    """A folder with a book, a table and a curve."""

    def setUp(self) -> None:
        super().setUp()
        self.write(BOOK, TABLE)

    def write(self, book: str, table: str, curve: str = CURVE) -> None:
        self.book, self.fix = self.file("book.txt", book), self.file("fix.csv", table)
        self.curve = self.file("curve.csv", curve)

    def history(
        self, *words: str | Path, curve: Path | None = None, first: str = "0", last: str = "2"
    ) -> Ran:
        return run_desk("history", self.book, self.fix, curve or self.curve, first, last, *words)

    def rows(self, *words: str | Path, first: str = FIRST, last: str = LAST) -> list[list[str]]:
        ran = self.history(*words, first=first, last=last)
        self.assertEqual((ran.status, ran.errors), (0, ""))
        return [line.split(",") for line in ran.output.splitlines()]


class Tables(Books):
    def test_by_contract(self) -> None:
        got = self.history("--rates-to", "3", last="4")
        # FX is 1.1 up to day 1; 120.00 is worth the half of it while it is two days away or more,
        # and 0.00 behind day 3.
        self.assertEqual(
            got.output.splitlines()[1:9],
            [
                "2026-01-05,f,A,B,EUR,-55.00000000000",
                "2026-01-05,g,A,B,EUR,0.75000000000",
                "2026-01-05,g,B,C,EUR,-0.50000000000",
                "2026-01-06,f,A,B,EUR,-55.00000000000",
                "2026-01-06,g,A,B,EUR,0.75000000000",
                "2026-01-06,g,B,C,EUR,-0.50000000000",
                "2026-01-07,f,A,B,EUR,-120.00000000000",
                "2026-01-07,g,A,B,EUR,1.50000000000",
            ],
        )
        self.assertEqual(
            got.output.splitlines()[-3:-1],
            ["2026-01-09,f,A,B,EUR,0.00000000000", "2026-01-09,g,A,B,EUR,0.00000000000"],
        )

    def test_by_pair_and_by_party(self) -> None:
        words = "--rates-to", "3", "--by"
        pairs = self.history(*words, "pair", last="0").output
        self.assertEqual(
            pairs,
            "day,contract,payer,receiver,asset,value\n"
            "2026-01-05,*,A,B,EUR,-54.25000000000\n"
            "2026-01-05,*,B,C,EUR,-0.50000000000\n",
        )
        parties = self.history(*words, "party", last="0").output.splitlines()
        wanted = [
            "day,party,asset,value",
            "2026-01-05,A,EUR,54.25000000000",
            "2026-01-05,B,EUR,-53.75000000000",
            "2026-01-05,C,EUR,-0.50000000000",
        ]
        self.assertEqual(parties, wanted)

    def test_a_curve_for_each_day(self) -> None:
        folder = self.folder / "curves"
        folder.mkdir()
        for day, factor in ("2026-01-05", "0.5"), ("2026-01-06", "0.25"):
            (folder / f"{day}.csv").write_text(f"offset,factor\n0,{factor}\n")
        ran = self.history("--rates-to", "3", curve=folder, last="1")
        self.assertEqual(
            [line.split(",")[-1] for line in ran.output.splitlines()[1::3]],
            ["-55.00000000000", "-27.50000000000"],
        )
        ran = self.history("--rates-to", "3", curve=folder)
        self.assertEqual((ran.status, ran.output), (3, ""))
        self.assertIn("2026-01-07.csv: No such file", ran.errors)
        (folder / "2026-01-06.csv").write_text("offset,factor\n0,1\n700,-1\n")
        ran = self.history("--rates-to", "3", curve=folder, last="1")
        self.assertEqual(ran.status, 7)
        self.assertIn("2026-01-06.csv: fault row file 3 record 3 factor", ran.errors)

    def test_nothing_to_ask(self) -> None:
        for book in (
            BOOK.partition("contract")[0],
            BOOK.partition("contract")[0] + "contract old = zero;\n",
            "portfolio 1; amounts 2;",
        ):
            self.write(book, TABLE if "num" in book else "label,day,value\n")
            self.assertEqual(self.history().output, "day,contract,payer,receiver,asset,value\n")


class Faults(Books):
    def refused(
        self, status: int, said: str, *words: str, first: str = "0", last: str = "2"
    ) -> None:
        ran = self.history(*words, first=first, last=last)
        self.assertEqual(
            (ran.status, ran.output, ran.errors.count("\n")), (status, "", 1), ran.errors
        )
        self.assertIn(said, ran.errors)

    def test_files(self) -> None:
        for book, table, curve, status, said in [
            (BOOK + "x", TABLE, CURVE, 6, "fault text syntax line 7 column 1"),
            (
                BOOK + "contract bad = scale(1.005, pay(EUR, A, B));",
                TABLE,
                CURVE,
                1,
                "fault refused bad scale node 0",
            ),
            (BOOK, TABLE + "HX,0,1\n", CURVE, 7, "fault row file 2 record 5 label"),
            (BOOK, TABLE + "FX,0,1.3\n", CURVE, 7, "fault row file 2 record 5 conflict with 2"),
            (BOOK, TABLE, "offset,factor\n", 7, "curve.csv: fault row file 3 record 2 zero"),
        ]:
            with self.subTest(said=said):
                self.write(book, table, curve)
                self.refused(status, said)

    def test_a_bad_row_that_no_call_would_read(self) -> None:
        """It is told of a book without contracts, and before a day that is out of range."""
        none, shape = "portfolio 1; amounts 2;", "fault row file 2 record 2 shape"
        rows, factors = "label,day,value\n", "offset,factor\n"
        for book in (none, none + " contract c = zero;", BOOK.partition("contract")[0]):
            self.write(book, rows + "FX\n")
            self.refused(7, shape)
            self.write(book, rows, factors + "x,y\n")
            self.refused(7, "curve.csv: fault row file 3 record 2 day")
        self.write(BOOK, rows + "FX\n")
        self.refused(7, shape, first="200000000", last="200000001")
        self.write(BOOK, TABLE, factors + "x,y\n")
        self.refused(7, "fault row file 3 record 2 day", first="200000000", last="200000001")

    def test_a_missing_file(self) -> None:
        self.curve = self.folder / "none"
        self.refused(3, "none: No such file or directory")

    def test_days(self) -> None:
        self.refused(2, "2026-01-05 is behind 2026-01-04", first="2026-01-05", last="2026-01-04")
        self.refused(2, "tomorrow is no day", last="tomorrow")
        self.write(BOOK.replace("origin 2026-01-05;", ""), "label,day,value\nFX,0,1\nGX,0,1\n")
        self.refused(
            11, "2026-01-05 is a date, and the book has no origin", first="2026-01-05", last="3"
        )
        self.write(
            BOOK.replace("origin 2026-01-05;", "start 2;"), "label,day,value\nFX,0,1\nGX,0,1\n"
        )
        self.refused(11, "0, f: fault day 0")
        self.refused(11, "fault day 999999999", first="3", last="999999999")

    def test_a_rate_behind_the_last_one(self) -> None:
        self.refused(
            8,
            "2026-01-05, f: fault missing FX 3; the last rates hold up to --rates-to,"
            " and 2026-01-08 is behind that day",
        )
        self.write(BOOK, "label,day,value\nGX,0,1\n")
        self.refused(8, "2026-01-05, f: fault missing FX 3\n", "--rates-to", "9")


def asked(program: Program, code: bytes, table: bytes, curve: str, row: list[str]) -> str:
    """What the program says of a row of a history, over a whole table."""
    day, _, payer, receiver, asset, _ = row
    words = ["--at", day, "--from", payer, "--to", receiver, "--asset", asset]
    answer = program.run("value", code, table, curve.encode(), *words)
    return answer.text.rstrip("\n")


def cells(text: str, day: int) -> list[list[str]]:
    """What is asked of the contract of a book on a day."""
    book = read_book(text.encode(), Runs(the_program()))
    return [[str(day), "c0", *names(book, pair), ""] for pair in book.pairs]


class Against(Books):
    """Histories beside the program, asked value by value over whole tables."""

    def test_a_member(self) -> None:
        program = the_program()
        self.write(SMALL.book(), SMALL.fixings(), SMALL.curve())
        rows = self.rows("--rates-to", TO)[1:]
        self.assertGreater(len(rows), 60)
        to, table = day_of(TO).number, tables.rows_by_label(self.fix)
        codes = {
            name: program.run("payoff", self.book, "--contract", name).expected()
            for name in {row[1] for row in rows}
        }
        for row in rows:
            known = "".join(table.until(day_of(row[0]).number).filled_lines(to)).encode()
            self.assertEqual(asked(program, codes[row[1]], known, SMALL.curve(), row), row[5], row)

    def test_sums_are_those_of_value_book(self) -> None:
        self.write(SMALL.book(), SMALL.fixings(), SMALL.curve())
        pairs = self.rows("--rates-to", TO, "--by", "pair")[1:]
        for row in [it for it in pairs if it[0] == "2026-01-08"]:
            known = self.file(
                "known.csv",
                "".join(
                    tables.rows_by_label(self.fix)
                    .until(day_of(row[0]).number)
                    .filled_lines(day_of(TO).number)
                ),
            )
            words = "--at", row[0], "--from", row[2], "--to", row[3], "--asset", row[4]
            ran = run_desk("value-book", self.book, known, self.curve, *words)
            self.assertEqual((ran.status, ran.output.splitlines()[-1]), (0, f"*,{row[5]}"))
        total: dict[tuple[str, str], Decimal] = {}
        for day, _, asset, value in self.rows("--rates-to", TO, "--by", "party")[1:]:
            total[day, asset] = total.get((day, asset), Decimal(0)) + Decimal(value)
        self.assertEqual((set(total.values()), len(total)), ({Decimal(0)}, 15))

    def test_random_contracts(self) -> None:
        """Rows that a contract cannot read have no say: values and faults are those over the
        whole table.
        """
        chance, program, faults, count = random.Random(5), the_program(), 0, 0
        for _ in range(60):
            text = random_contracts.book(chance, 1)
            if program.run("check", text.encode()).status:
                continue
            first = chance.randrange(3, 12)
            table = random_contracts.fixings(
                chance, chance.choice((first, 10, 40)), chance.choice((0.2, 0.9))
            )
            self.write(text, table, STEPS)
            to = chance.choice((first, first + 2, 80))
            ran = self.history("--rates-to", str(to), first=str(first), last=str(first))
            rows = [line.split(",") for line in ran.output.splitlines()[1:]]
            known = "".join(tables.rows_by_label(self.fix).until(first).filled_lines(to)).encode()
            code = program.run("payoff", self.book, "--contract", "c0").expected()
            count += len(rows)
            if ran.status:
                faults += 1
                told = [asked(program, code, known, STEPS, row) for row in cells(text, first)]
                self.assertIn(next(it for it in told if it.startswith("fault")), ran.errors)
            for row in rows:
                self.assertEqual(asked(program, code, known, STEPS, row), row[5], (text, row))
        self.assertGreater(count, 30)
        self.assertGreater(faults, 2)


class Keeping(Books):
    """Answers that are kept: what changed is asked again, and nothing else."""

    def setUp(self) -> None:
        super().setUp()
        real, self.log = the_program().path, self.file("log", "")
        self.stand_in = self.script(
            "counted", f'#!/bin/sh\necho "$1" >>{self.log}\nexec {real} "$@"\n'
        )

    def values_asked(self, *words: str | Path) -> tuple[int, str]:
        """How many values were asked for, and what was printed. One more call tries the tables."""
        self.log.write_text("")
        ran = self.history(
            "--rates-to", "3", "--keep", self.folder / "kept", "--program", self.stand_in, *words
        )
        self.assertEqual((ran.status, ran.errors), (0, ""))
        return self.log.read_text().split().count("value") - 1, ran.output

    def test_what_did_not_change_is_not_asked_again(self) -> None:
        count, wanted = self.values_asked()
        self.assertEqual(count, 9)
        self.assertEqual(self.values_asked(), (0, wanted))
        self.assertEqual(self.values_asked("--by", "party")[0], 0)
        # A row of GX has no say in what reads FX, and a row of a later day none in what was known
        # before.
        self.write(BOOK, TABLE + "GX,2026-01-06,1.6000\n")
        self.assertEqual(self.values_asked()[0], 4)
        self.write(BOOK, TABLE + "GX,2026-01-06,1.6000\nFX,2026-01-08,1.3000\n")
        self.assertEqual(self.values_asked()[0], 0)
        self.write(BOOK.replace("100.00", "200.00"), TABLE)
        self.assertEqual(self.values_asked()[0], 3)

    def test_a_kept_answer_that_is_not_as_it_was(self) -> None:
        wanted = self.values_asked()[1]
        file = next((self.folder / "kept" / "answers").iterdir())
        lines = file.read_bytes().splitlines(keepends=True)
        file.write_bytes(
            lines[0].replace(b"-55.0", b"-56.0")
            + b"".join(lines[1:-1])
            + lines[-1][:40]
            + b"\n"
            + b"[" * 200_000
        )
        self.assertEqual(self.values_asked(), (2, wanted))

    def test_faults_are_not_kept(self) -> None:
        words = "--keep", self.folder / "kept", "--rates-to"
        self.assertEqual(self.history(*words, "2").status, 8)
        self.assertEqual(self.history(*words, "3").status, 0)

    def test_a_run_that_was_killed_goes_on(self) -> None:
        """Its answers are those of one that was not, and none of those that were kept is asked
        again.
        """
        self.write(SMALL.book(), SMALL.fixings(), SMALL.curve())
        wanted = self.history("--rates-to", TO, first=FIRST, last="2026-01-14").output
        slow = self.script(
            "slow",
            f'#!/bin/sh\nsleep 0.01\necho "$1" >>{self.log}\nexec {the_program().path} "$@"\n',
        )
        words = [
            "history",
            self.book,
            self.fix,
            self.curve,
            FIRST,
            "2026-01-14",
            "--rates-to",
            TO,
            "--keep",
            self.folder / "kept",
        ]
        started = subprocess.Popen(
            [DESK / "tilugba-desk", *words, "--jobs", "1", "--program", slow],
            start_new_session=True,
        )
        until = time.monotonic() + 60
        while not list(self.folder.glob("kept/answers/*.jsonl")) and time.monotonic() < until:
            time.sleep(0.01)
        os.killpg(started.pid, signal.SIGKILL)
        self.assertEqual(started.wait(), -signal.SIGKILL)
        kept = sum(
            len(it.read_bytes().splitlines()) for it in self.folder.glob("kept/answers/*.jsonl")
        )
        # What the killed run had begun is over by now.
        time.sleep(0.5)
        self.log.write_text("")
        ran = run_desk(*words, "--program", slow)
        self.assertEqual((ran.status, ran.output), (0, wanted))
        self.assertGreaterEqual(kept, 64)
        self.assertEqual(
            self.log.read_text().split().count("value") - 1, wanted.count("\n") - 1 - kept
        )


class Engines(Books):
    def test_a_program_that_dies(self) -> None:
        dies = self.script(
            "dies", f'#!/bin/sh\n[ "$1" != value ] || kill -9 $$\nexec {the_program().path} "$@"\n'
        )
        ran = self.history("--program", dies)
        self.assertEqual((ran.status, ran.output), (137, ""))
        self.assertIn("was killed by signal SIGKILL", ran.errors)

    def test_one_job_and_many(self) -> None:
        one, many = (self.history("--rates-to", "3", "--jobs", jobs).output for jobs in ("1", "7"))
        self.assertEqual(one, many)
        self.assertEqual(self.history("--jobs", "0").status, 2)


if __name__ == "__main__":
    unittest.main()
