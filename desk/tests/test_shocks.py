"""Sets of scenarios out of a table: each row of each scenario, and that the program takes them."""

import random
import unittest
from decimal import ROUND_CEILING, ROUND_FLOOR, ROUND_HALF_EVEN, ROUND_HALF_UP, Decimal
from pathlib import Path

from tests.support import Ran, Room, run_desk, the_program
from tilugba.explanations.notes import counted
from tilugba.shocks.steps import step_of
from tilugba.texts.grammar import MODES

BOOK = """portfolio 1; amounts 2; origin 2026-01-05; party A, B; asset EUR;
num FX : 4 in 0.5000 .. 2.0000; num R : 3 in -0.100 .. 0.100; flag F;
contract c = both(after(2, scale(round(half_even, 2, (obs(FX, 0) * 100.00)), pay(EUR, A, B))),
  after(3, scale(round(half_even, 2, (obs(R, -1) * 1000.00)), pay(EUR, A, B))));
"""
ROWS = """FX,2026-01-05,1.1111
FX,2026-01-07,1.2345
FX,3,1.3
R,2,0.021
R,2026-01-08,-0.005
F,2026-01-08,false
"""
ROUNDINGS = dict(zip(MODES, (ROUND_HALF_EVEN, ROUND_HALF_UP, ROUND_FLOOR, ROUND_CEILING)))


class Sets(Room):
    def setUp(self) -> None:
        super().setUp()
        self.book = self.file("book.txt", BOOK)
        self.fix = self.file("fix.csv", "label,day,value\n" + ROWS)
        self.out = self.folder / "set.csv"

    def run_it(self, *words: str | Path, mode: str = "half_even", first: str = "2026-01-07") -> Ran:
        self.out.unlink(missing_ok=True)
        named = "--from", first, "--mode", mode, "--to", self.out
        return run_desk("shocks", self.book, self.fix, *named, *words)

    def made(self, *words: str | Path, mode: str = "half_even") -> list[str]:
        ran = self.run_it(*words, mode=mode)
        self.assertEqual((ran.status, ran.errors), (0, ""))
        lines = self.out.read_text().splitlines()
        count = len({line.split(",")[0] for line in lines[1:]} - {"*"})
        counts = counted(count, "scenario"), counted(len(lines) - 1, "row")
        self.assertEqual(ran.output, f"{', '.join(counts)}\n")
        return lines

    def refused(self, status: int, said: str, *words: str | Path) -> None:
        ran = self.run_it(*words)
        self.assertEqual(
            (ran.status, ran.output, ran.errors.count("\n")), (status, "", 1), ran.errors
        )
        self.assertIn(said, ran.errors)
        self.assertFalse(self.out.exists())

    def in_a_set(self, lines: list[str]) -> dict[str, str]:
        """What the program says of each scenario."""
        run = the_program().run
        code = run("payoff", BOOK.encode(), "--contract", "c").expected()
        words = "--at", "0", "--from", "A", "--to", "B", "--asset", "EUR", "--mean", "floor"
        table = "".join(f"{line}\n" for line in lines).encode()
        told = run("scenarios", code, table, b"offset,factor\n0,1\n", *words).expected().decode()
        return dict(line.split(",") for line in told.splitlines()[:-4])


class Steps(Sets):
    def test_one_label(self) -> None:
        self.assertEqual(
            self.made("--label", "FX", "--by=-1%,0.0005", "--base"),
            [
                "scenario,label,day,value",
                *(
                    "*,FX,2026-01-05,1.1111",
                    "*,R,2,0.021",
                    "*,R,2026-01-08,-0.005",
                    "*,F,2026-01-08,false",
                ),
                *("base,FX,2026-01-07,1.2345", "base,FX,3,1.3"),
                *("FX_down_1,FX,2026-01-07,1.2222", "FX_down_1,FX,3,1.2870"),
                *("FX_plus_0_0005,FX,2026-01-07,1.2350", "FX_plus_0_0005,FX,3,1.3005"),
            ],
        )

    def test_label_by_label(self) -> None:
        lines = self.made("--label", "FX", "--label", "R", "--by", "10%", "--by", "-0.001")
        self.assertEqual(
            lines[3:],
            [
                *("FX_up_10,FX,2026-01-07,1.3580", "FX_up_10,FX,3,1.4300"),
                *("FX_up_10,R,2,0.021", "FX_up_10,R,2026-01-08,-0.005"),
                *("R_minus_0_001,FX,2026-01-07,1.2345", "R_minus_0_001,FX,3,1.3"),
                *("R_minus_0_001,R,2,0.020", "R_minus_0_001,R,2026-01-08,-0.006"),
            ],
        )
        # 123.45 and 21.00 each; 135.80 is 10 % more, and the rate is 1.00 less.
        self.assertEqual(
            self.in_a_set(lines),
            {"FX_up_10": "156.80000000000", "R_minus_0_001": "143.45000000000"},
        )

    def test_all_at_once(self) -> None:
        names = lambda *words: list(dict.fromkeys(it.split(",")[0] for it in self.made(*words)[3:]))
        both = "--label", "FX", "--label", "R", "--parallel"
        self.assertEqual(names(*both, "--by=-5%,+2.50%"), ["all_down_5", "all_up_2_50"])
        self.assertEqual(names(*both, "--by=-5%,5%", "--by=-0.002,5%"), ["all_1", "all_up_5"])
        self.refused(2, "as many steps as the others", *both, "--by=1%", "--by=1%,2%")

    def test_each_mode(self) -> None:
        """Random steps, beside decimals that are rounded by Python."""
        chance = random.Random(3)
        for mode in MODES:
            step = chance.choice(
                (f"{chance.randrange(-20, 20)}.{chance.randrange(1000):03}%", "5%", "-0.00005")
            )
            lines = self.made(
                "--label", "FX", "--label", "R", f"--by={step}", "--parallel", mode=mode
            )
            size = Decimal(step.rstrip("%"))
            move = lambda it: it * (100 + size) / 100 if step.endswith("%") else it + size
            name = lines[-1].split(",")[0]
            for label, day, value, places in (
                ("FX", "2026-01-07", "1.2345", 4),
                ("FX", "3", "1.3", 4),
                ("R", "2026-01-08", "-0.005", 3),
            ):
                wanted = move(Decimal(value)).quantize(Decimal(1).scaleb(-places), ROUNDINGS[mode])
                wanted = abs(wanted) if not wanted else wanted
                self.assertIn(f"{name},{label},{day},{wanted}", lines, (step, mode))

    def test_numbers_of_many_digits(self) -> None:
        """A value keeps each of its digits, and so do the bounds that are told."""
        number = "1234567890123456.123456789012345678"
        most = "9999999999999999.999999999999999999"
        bounds = f"num LONG : 18 in 0.000000000000000000 .. {most};"
        self.file("book.txt", BOOK.replace("flag F;", f"flag F; {bounds}"))
        self.file("fix.csv", f"label,day,value\nLONG,2026-01-07,{number}\n")
        lines = self.made("--label", "LONG", "--by=0,0.000000000000000001,100%")
        self.assertEqual(
            [line.split(",")[3] for line in lines[1:]],
            [number, f"{number[:-1]}9", "2469135780246912.246913578024691356"],
        )
        self.refused(7, f"from 0.000000000000000000 to {most}", "--label", "LONG", "--by=1000%")

    def test_names_of_steps(self) -> None:
        for text, name in (
            ("-5%", "down_5"),
            ("5.0%", "up_5_0"),
            ("+1", "plus_1"),
            ("-.5", None),
            ("5 %", None),
        ):
            with self.subTest(text=text):
                if name:
                    self.assertEqual(step_of(text).name, name)
                else:
                    self.assertRaises(Exception, step_of, text)


class Replays(Sets):
    def history(self, *rows: str) -> Path:
        return self.file("history.csv", "label,day,value\n" + "".join(f"{row}\n" for row in rows))

    def test_factors_and_points(self) -> None:
        table = self.history(
            *("FX,2025-12-29,1.0000", "FX,2025-12-30,1.1000", "FX,2026-01-02,1.0450"),
            *("R,2025-12-29,0.020", "R,2025-12-31,0.099", "R,2026-01-02,0.025"),
        )
        lines = self.made("--replay", table, "--last", "2", "--label", "FX")
        wanted = ["on_2025_12_30,FX,2026-01-07,1.3580", "on_2025_12_30,FX,3,1.4300"]
        # 1.2345 times 0.95 is 1.172775.
        wanted += ["on_2026_01_02,FX,2026-01-07,1.1728", "on_2026_01_02,FX,3,1.2350"]
        self.assertEqual(lines[-4:], wanted)
        # Both have a value on two days: FX went up by 0.0450, and R by 0.005.
        lines = self.made("--replay", table, "--last", "1", "--points")
        wanted = ["on_2026_01_02,FX,2026-01-07,1.2795", "on_2026_01_02,FX,3,1.3450"]
        self.assertEqual(
            lines[-4:], [*wanted, "on_2026_01_02,R,2,0.026", "on_2026_01_02,R,2026-01-08,0.000"]
        )

    def test_a_number_that_is_too_long(self) -> None:
        table = self.history("FX,0,1.0", f"FX,1,{'1' * 5000}")
        self.refused(7, "FX has a number of 5,000 digits", "--replay", table, "--last", "1")

    def test_numbers_of_days(self) -> None:
        table = self.history("FX,-3,1.0", "FX,-2,1.1", "FX,4,1.1")
        names = {it.split(",")[0] for it in self.made("--replay", table, "--last", "2")[5:]}
        self.assertEqual(names, {"on_minus_2", "on_4"})

    def test_what_is_not_there(self) -> None:
        few = self.history("FX,1,1.0", "FX,2,1.1", "R,3,0")
        self.refused(
            7,
            "FX has 1 change from day to day, and not 2",
            "--replay",
            few,
            "--last",
            "2",
            "--label",
            "FX",
        )
        self.refused(7, "FX and R have 0 changes", "--replay", few, "--last", "1")
        self.refused(7, "it shares no label", "--replay", self.history("GX,1,1.0"), "--last", "1")
        self.refused(
            7,
            "it has no row of R",
            "--replay",
            self.history("FX,1,1.0"),
            "--last",
            "1",
            "--label",
            "R",
        )
        zero = self.history("R,1,0.00", "R,2,0.01")
        self.refused(7, "R was 0 before 2: --points adds changes", "--replay", zero, "--last", "1")
        flags = self.history("FX,1,true", "FX,2,1")
        self.refused(7, "FX is no number", "--replay", flags, "--last", "1")


class Refused(Sets):
    def test_words(self) -> None:
        for said, *words in [
            ("it takes --label and --by, or --replay",),
            ("it takes --label and --by, or --replay", "--label", "FX"),
            ("there are 1 labels, and 2 times --by", "--label", "FX", "--by=1%", "--by=2%"),
            ("a label is named twice", "--label", "FX", "--label", "FX", "--by=1%"),
            ("--last and --points go with --replay", "--label", "FX", "--by=1%", "--points"),
            ("--replay takes --last N", "--replay", "x.csv"),
            ("--replay takes no --by", "--replay", "x.csv", "--last", "1", "--by=1%"),
            ("two scenarios have the name FX_up_1", "--label", "FX", "--by=1%,1%"),
            ("longer than a name may be", "--label", "FX", f"--by=0.{'0' * 29}1%,0.{'0' * 29}1"),
        ]:
            with self.subTest(words=words):
                if "longer" in said:
                    self.file("book.txt", BOOK.replace("FX", "F" * 40))
                    self.file("fix.csv", "label,day,value\n" + ROWS.replace("FX", "F" * 40))
                    words[1] = "F" * 40
                self.refused(2, said, *words)
        ran = self.run_it("--label", "FX", "--by=five")
        self.assertEqual((ran.status, "five is no step" in ran.errors), (2, True))

    def test_the_longest_name(self) -> None:
        """A name has at most 64 letters, as those of the program."""
        label = "F" * 40
        self.file("book.txt", BOOK.replace("FX", label))
        self.file("fix.csv", "label,day,value\n" + ROWS.replace("FX", label))
        lines = self.made("--label", label, f"--by=0.{'0' * 17}1%")
        self.assertEqual(max(len(line.split(",")[0]) for line in lines[1:]), 64)
        self.refused(2, "longer than a name may be", "--label", label, f"--by=0.{'0' * 18}1%")

    def test_labels(self) -> None:
        self.refused(10, "there is no label GX; labels: FX, R", "--label", "GX", "--by=1%")
        self.refused(10, "F is a flag, and only numbers are moved", "--label", "F", "--by=1%")

    def test_bounds(self) -> None:
        said = "R_up_2000: R on 2 would be 0.441, and is declared from -0.100 to 0.100"
        self.refused(7, said, "--label", "R", "--by=1%,2000%")
        self.made("--label", "R", "--by=376%")

    def test_no_row_from_the_day_on(self) -> None:
        ran = self.run_it("--label", "FX", "--by=1%", first="2026-01-09")
        self.assertEqual(ran.status, 7)
        self.assertIn("the table has no row of FX from 2026-01-09 on", ran.errors)

    def test_files(self) -> None:
        self.file("fix.csv", "label,day,value\nFX,0,9\n")
        self.refused(7, "fault row file 2 record 2 bounds", "--label", "FX", "--by=1%")
        self.file("book.txt", BOOK.replace("100.00", "100.000"))
        self.file(
            "book.txt",
            BOOK.replace("scale(round(half_even, 2, (obs(FX, 0) * 100.00))", "scale(1.005"),
        )
        self.refused(1, "fault refused c scale", "--label", "FX", "--by=1%")

    def test_what_is_there_is_not_written_over(self) -> None:
        self.out.write_text("mine")
        named = "--from", "0", "--mode", "floor", "--to", self.out, "--label", "FX", "--by=1%"
        ran = run_desk("shocks", self.book, self.fix, *named)
        self.assertEqual((ran.status, ran.output, self.out.read_text()), (4, "", "mine"))
        self.assertIn("is there already, and is not written over", ran.errors)
        self.assertEqual(
            {it.name for it in self.folder.iterdir()}, {"book.txt", "fix.csv", "set.csv"}
        )


if __name__ == "__main__":
    unittest.main()
