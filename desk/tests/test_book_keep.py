"""The folder of `book keep`, and what `book since` says of it: exact files, lines and faults."""

from __future__ import annotations

import os
import signal
import subprocess
import sys
import unittest
from pathlib import Path

from tests.support import DESK, Ran, the_program
from tests.test_book_words import Words

FIRST = """portfolio 1;
amounts 2;
origin 2026-01-05;
party Me, Acme, Bank;
asset EUR;
num FX : 4 in 0.5000 .. 2.0000;
contract touch = if (obs(FX, 0) < 1.1000) within 5 then scale(500.00, pay(EUR, Acme, Me)) else zero;
contract late = after(3, scale(round(half_even, 2, obs(FX, -3)), pay(EUR, Me, Acme)));
"""
HEADER = "label,day,value\n"


class Keeping(Words):
    def setUp(self) -> None:
        super().setUp()
        self.kept = self.folder / "kept"
        self.wrong = self.file("wrong.csv", HEADER + "FX,0,1.0640\n")
        self.right = self.file("right.csv", HEADER + "FX,0,1.1640\n")
        self.assertEqual(self.keep("begin", self.file("first.txt", FIRST)), Ran(0, "", ""))

    def keep(self, *words: str | Path) -> Ran:
        return self.book("keep", self.kept, *words)

    def since(self, table: Path) -> Ran:
        return self.book("since", self.kept, table)

    def files(self) -> dict[str, bytes]:
        return {
            str(it.relative_to(self.folder)): it.read_bytes()
            for it in self.folder.rglob("*")
            if it.is_file()
        }

    def test_a_step_whose_lines_are_lost_is_told(self) -> None:
        """The step is kept, and the fault says so: whoever runs it again would run it twice."""
        for number, words in enumerate(
            (("advance", self.wrong, "--to", "2026-01-06"), ("correct", self.right)), 1
        ):
            with open("/dev/full", "wb") as full:
                ran = subprocess.run(
                    [DESK / "tilugba-desk", "book", "keep", self.kept, *words],
                    env={**os.environ, "TILUGBA": str(the_program().path)},
                    stdout=full,
                    stderr=subprocess.PIPE,
                    text=True,
                )
            self.assertEqual(ran.returncode, 4)
            kept = self.kept / f"{number:04}"
            self.assertIn("the output was not written whole: ", ran.stderr)
            self.assertTrue(ran.stderr.endswith(f"; the step is kept, as {kept}\n"), ran.stderr)
            self.assertTrue((kept / "event").is_file())

    def test_what_is_kept(self) -> None:
        ran = self.keep("advance", self.wrong, "--to", "2026-01-06")
        self.assertEqual((ran.status, ran.errors), (0, ""))
        self.assertTrue(
            ran.output.startswith("# touch,2026-01-05,Acme,Me,EUR,500.00\nportfolio 1;\n")
        )
        found = {name: data for name, data in self.files().items() if name.startswith("kept/")}
        self.assertEqual(
            sorted(found),
            [f"kept/{it}" for it in ("0000/book.txt", "0000/due.csv", "0000/event")]
            + [f"kept/0001/{it}" for it in ("book.txt", "due.csv", "event", "table.csv")],
        )
        self.assertEqual(found["kept/0001/event"], b"advance\ntable.csv\n--to\n2026-01-06\n")
        self.assertEqual(found["kept/0001/table.csv"], self.wrong.read_bytes())
        self.assertEqual(found["kept/0001/due.csv"], b"touch,2026-01-05,Acme,Me,EUR,500.00\n")
        self.assertEqual(
            "# touch,2026-01-05,Acme,Me,EUR,500.00\n" + found["kept/0001/book.txt"].decode(),
            ran.output,
        )
        self.assertEqual(self.keep("show").output, found["kept/0001/book.txt"].decode())

    def test_a_correction(self) -> None:
        """It is shown and kept; the folder goes on from it; a step that changes nothing is not
        kept.
        """
        self.keep("advance", self.wrong, "--to", "1")
        before = self.files()
        gone = "gone,touch,2026-01-05,Acme,Me,EUR,500.00\n"
        self.assertEqual(self.since(self.right), Ran(0, gone, ""))
        self.assertEqual(self.files(), before)
        self.assertEqual(self.keep("correct", self.right), Ran(0, gone, ""))
        self.assertEqual(self.keep("correct", self.right), Ran(0, "", ""))
        self.assertIn(
            "contract touch = if (obs(FX, 0) < 1.1000) within 4 then", self.keep("show").output
        )
        self.assertEqual((self.kept / "0002" / "corrections.csv").read_text(), gone)
        self.assertEqual(sorted(it.name for it in self.kept.iterdir()), ["0000", "0001", "0002"])
        self.assertEqual(
            {name: data for name, data in self.files().items() if not name.startswith("kept/0002")},
            before,
        )
        # A second correction of the same day takes the lines of the first one back.
        self.assertEqual(self.keep("correct", self.wrong), Ran(0, gone.replace("gone", "new"), ""))
        self.assertEqual(self.since(self.right), Ran(0, gone, ""))

    def test_the_same_value_otherwise_written_is_no_correction(self) -> None:
        self.keep("advance", self.wrong, "--to", "1")
        self.assertEqual(
            self.keep(
                "correct", self.file("w.csv", HEADER + '"FX",2026-01-05,"1.064"\nFX,3,1.2\n')
            ),
            Ran(0, "", ""),
        )
        self.assertEqual(len(list(self.kept.iterdir())), 2)

    def test_a_row_of_a_later_day_counts(self) -> None:
        """An assumed rate of a later day is in the book for good, so the step of its table is done
        anew.
        """
        assumed = self.file("assumed.csv", HEADER + "FX,0,1.2\nFX,1,1.0000\n")
        self.keep("advance", assumed, "--to", "1")
        self.keep("advance", assumed, "--to", "2")
        true = self.file("true.csv", HEADER + "FX,0,1.2\nFX,1,1.2\n")
        self.assertEqual(self.since(true), Ran(0, "gone,touch,2026-01-06,Acme,Me,EUR,500.00\n", ""))
        self.keep("correct", true)
        self.assertEqual(
            sorted(it.name for it in (self.kept / "0003" / "replayed").iterdir()), ["0001", "0002"]
        )

    def test_a_new_row_of_a_later_day_is_not_taken(self) -> None:
        """A step that is done anew takes no row of its own day that its table did not have."""
        self.kept = self.folder / "later"
        seen = "scale(round(half_even, 2, obs(FX, -1)), pay(EUR, Me, Acme))"
        book = self.file("first.txt", f"{FIRST}contract seen = after(2, {seen});\n")
        self.keep("begin", book)
        self.keep("advance", self.wrong, "--to", "1")
        more = self.file("more.csv", HEADER + "FX,0,1.1640\nFX,1,1.0000\n")
        gone = "gone,touch,2026-01-05,Acme,Me,EUR,500.00\n"
        self.assertEqual(self.keep("correct", more), Ran(0, gone, ""))
        self.assertIn(f"contract seen = after(1, {seen});\n", self.keep("show").output)

    def test_a_row_that_is_taken_out_counts(self) -> None:
        self.kept = self.folder / "assumed"
        fixed = "round(half_even, 2, obs(FX, -1))"
        seen = f"contract seen = after(4, scale({fixed}, pay(EUR, Me, Acme)));\n"
        self.keep("begin", self.file("first.txt", FIRST + seen))
        self.keep("advance", self.file("assumed.csv", HEADER + "FX,0,1.2\nFX,3,1.3\n"), "--to", "1")
        self.assertIn("contract seen = after(3, scale(1.30, ", self.keep("show").output)
        self.assertEqual(
            self.keep("correct", self.file("true.csv", HEADER + "FX,0,1.2\n")), Ran(0, "", "")
        )
        self.assertIn(
            "contract seen = after(3, scale(round(half_even, 2, obs(FX, -1)), ",
            self.keep("show").output,
        )

    def test_a_book_does_not_go_on_by_another_rate(self) -> None:
        self.keep("advance", self.wrong, "--to", "1")
        said = (
            "right.csv has 1.1640 for FX on 2026-01-05, and the table of step 0001 has 1.0640:"
            " keep the correction first, by `keep kept correct right.csv`"
        )
        self.assertEqual(
            self.keep("advance", self.right, "--to", "2"),
            Ran(7, "", f"tilugba-desk book keep: {said}\n"),
        )

    def test_novation_add_and_drop(self) -> None:
        """The old party's lines stand before the novation, the new one's behind it, and a dropped
        contract pays up to its end.
        """
        text = FIRST + (
            "contract loan = both(after(0, scale(1.00, pay(EUR, Me, Acme))), both("
            "after(2, scale(round(half_even, 2, obs(FX, 0)), pay(EUR, Me, Acme))), "
            "after(6, scale(round(half_even, 2, obs(FX, -6)), pay(EUR, Me, Acme)))));\n"
        )
        self.kept = self.folder / "story"
        self.keep("begin", self.file("first.txt", text))
        rates = {
            0: "1.2000",
            1: "1.2100",
            2: "1.0500",
            3: "1.2200",
            4: "1.2300",
            5: "1.2400",
            6: "1.2500",
        }
        table = lambda **other: self.file(
            "t.csv",
            HEADER
            + "".join(f"FX,{day},{it}\n" for day, it in (rates | other.get("rates", {})).items()),
        )
        deals = (
            FIRST.replace("origin 2026-01-05;", "origin 2026-01-05;start 4;")
            .replace("touch", "touch2")
            .replace("late", "late2")
        )
        self.keep("advance", table(), "--to", "3")
        self.keep(
            "novate", table(), "--to", "4", "--contract", "loan", "--old", "Acme", "--new", "Bank"
        )
        self.keep("add", self.file("deals.txt", deals), table())
        self.keep("advance", table(), "--to", "5")
        self.keep("drop", "late2")
        self.keep("advance", table(), "--to", "7")
        ran = self.since(table(rates={0: "1.3000", 2: "1.2500", 4: "1.0900"}))
        self.assertEqual(
            ran.output.splitlines(),
            [
                "gone,loan,2026-01-07,Me,Acme,EUR,1.05",
                "new,loan,2026-01-07,Me,Acme,EUR,1.25",
                "gone,touch,2026-01-07,Acme,Me,EUR,500.00",
                "gone,late,2026-01-08,Me,Acme,EUR,1.20",
                "new,late,2026-01-08,Me,Acme,EUR,1.30",
                "new,touch,2026-01-09,Acme,Me,EUR,500.00",
                "new,touch2,2026-01-09,Acme,Me,EUR,500.00",
                "gone,loan,2026-01-11,Me,Bank,EUR,1.20",
                "new,loan,2026-01-11,Me,Bank,EUR,1.30",
            ],
        )

    def test_an_event_that_does_not_apply_any_more(self) -> None:
        """By the first rate the touch was alive when books were pruned, and was dropped later; by
        the other one it is pruned.
        """
        self.kept = self.folder / "pruned"
        self.keep("begin", self.file("first.txt", FIRST + "contract old = zero;\n"))
        self.keep("advance", self.right, "--to", "1")
        self.assertEqual(self.keep("prune").errors, "old\n")
        self.keep("drop", "touch")
        before = self.files()
        said = (
            "step 0003, drop touch: it does not apply any more: pruned/0002/book.txt:"
            " there is no contract touch"
        )
        self.assertEqual(self.since(self.wrong), Ran(10, "", f"tilugba-desk book since: {said}\n"))
        self.assertEqual(
            self.keep("correct", self.wrong), Ran(10, "", f"tilugba-desk book keep: {said}\n")
        )
        self.assertEqual(self.files(), before)

    def test_a_step_that_changes_nothing_is_not_kept(self) -> None:
        ran = self.keep("prune")
        self.assertEqual((ran.status, ran.output), (0, FIRST))
        self.assertEqual([it.name for it in self.kept.iterdir()], ["0000"])

    def test_missing_rows_and_bad_tables(self) -> None:
        self.keep("advance", self.wrong, "--to", "1")
        ran = self.since(self.file("less.csv", HEADER))
        self.assertEqual((ran.status, ran.output), (8, ""))
        self.assertEqual(
            ran.errors.splitlines()[:2],
            [
                "step 0001, advance table.csv --to 1: it does not apply any more",
                "kept/0000/book.txt: missing fixing of FX on 2026-01-05 (day 0, a Monday),"
                " read by touch",
            ],
        )
        ran = self.since(self.file("bad.csv", HEADER + "FX,0,1.1\nFX,0,x\n"))
        self.assertEqual(
            (ran.status, ran.errors.splitlines()[0]), (7, "bad.csv:3:6: value (record 3)")
        )

    def test_folders_that_are_none(self) -> None:
        self.fails(
            3,
            "tilugba-desk book since: none: No such file or directory\n",
            "since",
            self.folder / "none",
            self.right,
        )
        (self.folder / "empty").mkdir()
        said = "empty: no step is kept there; begin with `keep empty begin BOOK`"
        self.fails(3, f"tilugba-desk book keep: {said}\n", "keep", self.folder / "empty", "prune")
        self.keep("advance", self.wrong, "--to", "1")
        (self.kept / "0000").rename(self.kept / "0002")
        self.fails(
            3,
            "tilugba-desk book since: kept: the step 0000 is missing\n",
            "since",
            self.kept,
            self.right,
        )
        (self.kept / "0002").rename(self.kept / "0000")
        (self.kept / "0001" / "due.csv").unlink()
        said = "kept/0001/due.csv: No such file or directory"
        self.fails(3, f"tilugba-desk book since: {said}\n", "since", self.kept, self.right)
        said = "kept is there already, and is not written over"
        self.fails(
            4,
            f"tilugba-desk book keep: {said}\n",
            "keep",
            self.kept,
            "begin",
            self.file("f.txt", FIRST),
        )

    def test_a_fault_keeps_nothing(self) -> None:
        before = self.files()
        ran = self.keep("advance", self.file("empty.csv", HEADER), "--to", "1")
        self.assertEqual(ran.status, 8)
        self.assertEqual(self.keep("drop", "none").status, 10)
        self.assertEqual(self.keep("advance", self.wrong, "--to", "x").status, 2)
        (self.folder / "empty.csv").unlink()
        self.assertEqual(self.files(), before)

    def test_ids(self) -> None:
        self.kept = self.folder / "with"
        first = self.file("first.txt", FIRST)
        self.keep("begin", first, "--ids", self.file("ids.csv", "name,id\ntouch,T1\n"))
        deals = self.file("deals.txt", FIRST.replace("touch", "new").replace("late", "newer"))
        self.assertEqual(
            self.keep("add", deals, "--ids", self.file("more.csv", "name,id\nnew,T2\n")).status, 0
        )
        self.keep("advance", self.wrong, "--to", "1")
        self.keep("correct", self.right)
        for number in ("0001", "0002", "0003"):
            self.assertEqual(
                (self.kept / number / "ids.csv").read_text(), "name,id\ntouch,T1\nnew,T2\n"
            )

    def test_a_killed_process_leaves_the_folder(self) -> None:
        """Killed before the rename; a further run keeps the step."""
        before = self.files()
        script = (
            "import os, signal; from tilugba import cli;"
            "os.rename = lambda *_: os.kill(os.getpid(), signal.SIGKILL); cli.main()"
        )
        words = ["book", "keep", self.kept, "advance", self.wrong, "--to", "1"]
        environment = {**os.environ, "TILUGBA": str(the_program().path)}
        ran = subprocess.run(
            [sys.executable, "-c", script, *words], cwd=DESK, env=environment, capture_output=True
        )
        self.assertEqual((ran.returncode, ran.stdout), (-signal.SIGKILL, b""))
        self.assertEqual(
            {name: data for name, data in self.files().items() if not name.startswith(".0001.")},
            before,
        )
        self.assertEqual([it.name for it in self.kept.iterdir()], ["0000"])
        self.assertEqual(self.keep("advance", self.wrong, "--to", "1").status, 0)

    def test_two_at_once(self) -> None:
        """The second one finds the step taken."""
        from tilugba.books.folder import read_kept
        from tilugba.program import Stop

        one, two = read_kept(self.kept), read_kept(self.kept)
        one.keep({"event": b"prune\n", "book.txt": FIRST.encode(), "due.csv": b""})
        with self.assertRaisesRegex(Stop, "0001 is there already, and is not written over"):
            two.keep({"event": b"prune\n", "book.txt": b"", "due.csv": b""})
        self.assertEqual((self.kept / "0001" / "book.txt").read_text(), FIRST)


if __name__ == "__main__":
    unittest.main()
