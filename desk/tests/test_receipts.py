"""Receipts of night runs, explained runs and histories, and what `verify` says of them."""

import hashlib
import json
import os
import resource
import subprocess
import threading
import unittest
from pathlib import Path

from tests.support import DESK, Ran, Room, run_desk, the_program
from tilugba.receipts import Sum

LOAN = "portfolio 1; amounts 2; origin 2026-01-05; party A, B; asset EUR;\n{}contract loan = {};\n"
RATE = "num FX : 4 in 0.5000 .. 2.0000;\n"
AMOUNT = "scale(round(half_even, 2, (obs(FX, 0) * 100.00)), pay(EUR, A, B))"
TABLE = "label,day,value\nFX,2026-01-05,1.2500\n"


def sum_of(path: Path) -> tuple[int, str]:
    data = path.read_bytes()
    return len(data), hashlib.sha256(data).hexdigest()


class Receipts(Room):
    """A folder with some books and a table, in which the commands run."""

    def setUp(self) -> None:
        super().setUp()
        before = os.getcwd()
        os.chdir(self.folder)
        self.addCleanup(os.chdir, before)
        for number in range(4):
            self.file(
                f"{number}.txt",
                LOAN.format(RATE, f"both({AMOUNT}, scale({number}.00, pay(EUR, B, A)))"),
            )
        self.file("fix.csv", TABLE)

    def night(self, *books: str) -> Ran:
        return run_desk("night-run", "out", "flows", "{}", "fix.csv", "--", *books)

    def told(self, path: str) -> list[dict]:
        return [json.loads(line) for line in Path(path).read_text().splitlines()]

    def verify(self, *words: str) -> tuple[int, list[str]]:
        ran = run_desk("verify", *words)
        self.assertEqual(ran.errors, "")
        return ran.status, ran.output.splitlines()

    def spoil(self, name: str, old: str, new: str) -> None:
        path = Path(name)
        text = path.read_text()
        self.assertIn(old, text)
        path.write_text(text.replace(old, new))


class Nights(Receipts):
    def test_each_book_has_a_receipt(self) -> None:
        Path("3.txt").write_text("portfolio 1;")
        self.assertEqual(self.night("0.txt", "1.txt", "3.txt").status, 6)
        first, second, third = self.told("out/.night-run/receipts.jsonl")
        self.assertEqual(
            (first["words"], first["status"], first["fault"]),
            (["flows", "0.txt", "fix.csv"], 0, None),
        )
        for it in [*first["files"], first["program"], first["output"] | {"name": "out/0.txt"}]:
            self.assertEqual((it["size"], it["sha256"]), sum_of(Path(it["name"])))
        self.assertEqual([it["name"] for it in second["files"]], ["1.txt", "fix.csv"])
        said = "fault text syntax line 1 column 13"
        self.assertEqual(
            (third["status"], third["fault"], third["output"]["size"]), (6, said, len(said) + 1)
        )
        self.assertRegex(first["time"], r"^20\d\d-\d\d-\d\dT\d\d:\d\d:\d\dZ$")
        self.assertEqual(
            self.verify("out/.night-run/receipts.jsonl", "--again"), (0, ["3 stand, 0 do not"])
        )

    def test_a_book_that_was_done_before_keeps_its_receipt(self) -> None:
        self.night("0.txt", "1.txt")
        path = Path("out/.night-run/receipts.jsonl")
        before = path.read_text()
        path.unlink()
        self.night("0.txt", "1.txt")
        self.assertEqual(path.read_text(), before)

    def test_a_file_that_is_not_there(self) -> None:
        self.night("none.txt")
        it = self.told("out/.night-run/receipts.jsonl")[0]
        self.assertEqual(
            (it["status"], it["files"][0]), (3, {"name": "none.txt", "size": None, "sha256": None})
        )
        status, lines = self.verify("out/.night-run/receipts.jsonl")
        self.assertEqual(status, 1)
        self.assertIn("nothing is known of none.txt", lines[0])

    def test_a_summary_for_a_monitor(self) -> None:
        Path("2.txt").write_text(LOAN.format(RATE, "scale(1.005, pay(EUR, A, B))"))
        self.night("0.txt", "1.txt")
        self.night("0.txt", "1.txt", "2.txt", "3.txt")
        it = json.loads(Path("out/.night-run/summary.json").read_text())
        self.assertEqual((it["books"], it["done"], it["done_before"]), (4, 1, 2))
        self.assertEqual((it["statuses"], it["status"]), ({"0": 3, "1": 1}, 1))
        self.assertEqual(
            it["failed"],
            [{"book": "2.txt", "status": 1, "fault": "fault refused loan scale node 0"}],
        )
        self.assertGreater(it["seconds"], 0)

    def test_there_is_no_summary_while_a_run_goes_on(self) -> None:
        self.night("0.txt")
        pipe, seen = self.folder / "pipe", []
        os.mkfifo(pipe)
        slow = self.script(
            "slow",
            f'#!/bin/sh\n[ "$1" = sample ] || read line <{pipe}\nexec {the_program().path} "$@"\n',
        )

        def go_on() -> None:
            with open(pipe, "w") as out:
                seen.append(Path("out/.night-run/summary.json").exists())
                out.write("go\n")

        thread = threading.Thread(target=go_on, daemon=True)
        thread.start()
        ran = run_desk(
            "night-run", "--program", slow, "out", "flows", "{}", "fix.csv", "--", "0.txt"
        )
        thread.join(60)
        self.assertEqual((ran.status, seen), (0, [False]))
        self.assertTrue(Path("out/.night-run/summary.json").exists())


class Verified(Receipts):
    def test_what_changed_is_named(self) -> None:
        self.night("0.txt", "1.txt", "2.txt", "3.txt")
        receipts = "out/.night-run/receipts.jsonl"
        self.spoil("1.txt", "1.00", "9.00")
        self.spoil("out/2.txt", "123.00", "124.00")
        Path("out/3.txt").unlink()
        status, lines = self.verify(receipts, "--again")
        self.assertEqual((status, len(lines), lines[-1]), (1, 4, "1 stands, 3 do not"))
        self.assertRegex(
            lines[0],
            r"^receipt 2: tilugba flows 1.txt fix.csv: 1.txt is another file: its SHA-256 is ",
        )
        self.assertRegex(lines[1], r"^receipt 3: .*: .*/out/2.txt is another file: ")
        self.assertRegex(lines[2], r"^receipt 4: .*: .*/out/3.txt is not read$")

    def test_outputs_that_you_have(self) -> None:
        self.night("0.txt", "1.txt")
        receipts = "out/.night-run/receipts.jsonl"
        Path("mine.csv").write_bytes(Path("out/1.txt").read_bytes())
        status, lines = self.verify(receipts, "mine.csv", "--all")
        self.assertEqual(
            (status, lines[-2:]),
            (
                0,
                [
                    "mine.csv: is what receipt 2 says: tilugba flows 1.txt fix.csv",
                    "3 stand, 0 do not",
                ],
            ),
        )
        Path("both.csv").write_bytes(
            b"".join(Path(f"out/{number}.txt").read_bytes() for number in (1, 0))
        )
        self.assertEqual(
            self.verify(receipts, "both.csv")[1][0], "both.csv: no receipt has its sum"
        )
        self.assertIn(
            "though each of its lines is made by one",
            self.verify(receipts, "both.csv", "--again")[1][0],
        )
        self.spoil("both.csv", "125.00", "126.00")
        line = "loan,2026-01-05,A,B,EUR,126.00"
        wanted = f"both.csv: 1 of 2 lines are what receipts make; line 2 is not: {line}"
        self.assertEqual(self.verify(receipts, "both.csv", "--again")[1][0], wanted)

    def test_a_number_that_the_program_does_not_print(self) -> None:
        """Whoever writes a result may write its receipt too: only a run again tells it."""
        self.night("0.txt", "1.txt")
        receipts = Path("out/.night-run/receipts.jsonl")
        self.spoil("out/1.txt", "124.00", "123.00")
        size, total = sum_of(Path("out/1.txt"))
        first, second = self.told(str(receipts))
        second["output"] |= {"size": size, "sha256": total}
        receipts.write_text("".join(json.dumps(it) + "\n" for it in (first, second)))
        self.assertEqual(self.verify(str(receipts))[0], 0)
        status, lines = self.verify(str(receipts), "--again")
        was, now = (f"loan,2026-01-05,A,B,EUR,{amount}" for amount in ("123.00", "124.00"))
        said = f"it prints something else: line 1 of the file is {was}, and now it is {now}"
        self.assertEqual((status, lines[0]), (1, f"receipt 2: tilugba flows 1.txt fix.csv: {said}"))

    def test_a_status_that_the_program_does_not_end_with(self) -> None:
        self.night("0.txt")
        it = self.told("out/.night-run/receipts.jsonl")[0]
        it["output"]["name"] = None
        for changes, said in [
            ({}, None),
            ({"status": 1}, "the status is 0, and was 1"),
            ({"output": None}, "nothing is known of what it printed"),
        ]:
            with self.subTest(said=said):
                self.file("other.jsonl", json.dumps(it | changes) + "\n")
                status, lines = self.verify("other.jsonl", "--again")
                wanted = ["1 stands, 0 do not"]
                if said:
                    told = f"receipt 1: tilugba flows 0.txt fix.csv: {said}"
                    wanted = [told, "0 stand, 1 does not"]
                self.assertEqual((status, lines), (1 if said else 0, wanted))

    def test_another_folder_and_another_program(self) -> None:
        self.night("0.txt")
        other = self.script("other", f'#!/bin/sh\nexec {the_program().path} "$@"\n')
        os.chdir("/")
        words = (
            str(self.folder / "out/.night-run/receipts.jsonl"),
            "--folder",
            str(self.folder),
            "--again",
            "--all",
        )
        self.assertEqual(
            self.verify(*words),
            (0, ["receipt 1: tilugba flows 0.txt fix.csv: stands", "1 stands, 0 do not"]),
        )
        lines = self.verify(*words, "--program", str(other))[1]
        self.assertEqual(
            lines[0], f"receipt 1: tilugba flows 0.txt fix.csv: stands, by another program, {other}"
        )

    def test_lines_that_are_no_receipts(self) -> None:
        texts = "x\n", "[]\n", "{}\n", '{"form": 1, "by": "tilugba", "words": [1]}\n', "[" * 200_000
        for text in texts:
            ran = run_desk("verify", self.file("bad.jsonl", text))
            self.assertEqual((ran.status, ran.output), (7, ""), text[:100])
            self.assertIn("bad.jsonl: line 1 is no receipt of this release", ran.errors)
        self.night("0.txt")
        it = self.told("out/.night-run/receipts.jsonl")[0]
        self.assertEqual(self.verify(str(self.file("good.jsonl", json.dumps(it))))[0], 0)
        for changes in {"form": 2}, {"by": "another"}, {"time": 5}:
            bad = self.file("bad.jsonl", json.dumps(it | changes))
            self.assertEqual(run_desk("verify", bad).status, 7, changes)

    def test_a_receipt_cannot_make_the_desk_write(self) -> None:
        self.night("0.txt")
        it = self.told("out/.night-run/receipts.jsonl")[0] | {"by": "tilugba-desk", "output": None}
        before = Path("1.txt").read_bytes()
        for words, said in [
            (["format", "--in-place", "1.txt"], "no receipt is of format"),
            (
                ["history", "1.txt", "fix.csv", "1.txt", "0", "0", "--keep=kept"],
                "these words would write",
            ),
            (["history", "1.txt"], "history does not take these words"),
            (["history", "--help"], "history does not take these words"),
            ([], "no receipt is of no word"),
        ]:
            self.file("forged.jsonl", json.dumps(it | {"words": words}) + "\n")
            status, lines = self.verify("forged.jsonl", "--again")
            self.assertEqual(status, 1)
            self.assertIn(f"it does not run: {said}", lines[0])
        self.assertEqual((Path("1.txt").read_bytes(), Path("kept").exists()), (before, False))


    def test_a_receipt_is_told_on_its_own_line(self) -> None:
        """Whatever its words are, none of them is taken for what `verify` says."""
        self.night("0.txt")
        it = self.told("out/.night-run/receipts.jsonl")[0]
        words = ["flows", "0.txt: stands\n2 stand, 0 do not\n", "\x1b[2J"]
        self.file("forged.jsonl", json.dumps(it | {"words": words, "status": 1}) + "\n")
        status, lines = self.verify("forged.jsonl", "--again")
        self.assertEqual((status, lines[1:]), (1, ["0 stand, 1 does not"]))
        self.assertIn(
            "receipt 1: tilugba flows 0.txt: stands?2 stand, 0 do not? ?[2J: the status is",
            lines[0],
        )


class Others(Receipts):
    def test_explain(self) -> None:
        ran = run_desk(
            "explain", "--receipt", "r.jsonl", "flows", "1.txt", "fix.csv", "--until", "2026-01-09"
        )
        self.file("flows.csv", ran.output)
        self.assertEqual(run_desk("explain", "--receipt", "r.jsonl", "flows", "1.txt").status, 8)
        self.assertEqual(run_desk("explain", "--receipt", "r.jsonl", "flows", "none.txt").status, 3)
        self.assertEqual(run_desk("explain", "--receipt", "r.jsonl", "flaws").status, 2)
        told = self.told("r.jsonl")
        self.assertEqual([it["status"] for it in told], [0, 8, 3, 2])
        self.assertEqual(
            [it["fault"] for it in told],
            [None, "fault missing FX 0", "fault read 1", "fault usage"],
        )
        self.assertEqual(
            [[file["name"] for file in it["files"]] for it in told],
            [["1.txt", "fix.csv"], ["1.txt"], ["none.txt"], []],
        )
        status, lines = self.verify("r.jsonl", "flows.csv", "--again", "--all")
        self.assertEqual((status, lines[-1]), (0, "5 stand, 0 do not"))

    def test_explain_of_a_pipe(self) -> None:
        """What can be read once is read once, and the receipt has the sum of what was read."""
        script = 'exec "$0" explain --receipt r.jsonl flows <(cat 1.txt) fix.csv'
        ran = subprocess.run(
            ["bash", "-c", script, DESK / "tilugba-desk"], capture_output=True, text=True
        )
        self.assertEqual((ran.returncode, ran.stdout), (0, "loan,2026-01-05,A,B,EUR,124.00\n"))
        self.assertEqual(self.told("r.jsonl")[0]["files"][0]["sha256"], sum_of(Path("1.txt"))[1])

    def test_a_contract_that_is_named_as_a_file(self) -> None:
        self.file("loan", Path("1.txt").read_bytes())
        ran = run_desk("explain", "--receipt", "r.jsonl", "payoff", "loan", "--contract", "loan")
        self.assertEqual((ran.status, len(self.told("r.jsonl")[0]["files"])), (0, 1))
        self.assertEqual(self.verify("r.jsonl", "--again")[0], 0)

    def test_history(self) -> None:
        Path("curves").mkdir()
        for day in "2026-01-05", "2026-01-06":
            self.file(f"curves/{day}.csv", "offset,factor\n0,1\n")
        words = (
            "history",
            "1.txt",
            "fix.csv",
            "curves",
            "0",
            "1",
            "--by",
            "party",
            "--receipt",
            "r.jsonl",
        )
        ran = run_desk(*words)
        self.file("h.csv", ran.output)
        told = self.told("r.jsonl")[0]
        names = ["1.txt", "fix.csv", "curves/2026-01-05.csv", "curves/2026-01-06.csv"]
        self.assertEqual([it["name"] for it in told["files"]], names)
        self.assertEqual(self.verify("r.jsonl", "h.csv", "--again"), (0, ["2 stand, 0 do not"]))
        os.chdir("/")
        words = str(self.folder / "r.jsonl"), "--again", "--folder", str(self.folder)
        self.assertEqual(self.verify(*words), (0, ["1 stands, 0 do not"]))
        os.chdir(self.folder)
        self.file("other.jsonl", json.dumps(told | {"desk": "0" * 64}) + "\n")
        line = self.verify("other.jsonl", "--again", "--all")[1][0]
        self.assertTrue(line.endswith(": stands, by another desk"), line)
        self.spoil("h.csv", "-124.0", "-142.0")
        self.assertIn(
            "h.csv: 4 of 5 lines are what receipts make; line 2 is not",
            self.verify("r.jsonl", "h.csv", "--again")[1][0],
        )
        self.spoil("curves/2026-01-06.csv", "0,1", "0,1.0")
        self.assertIn("curves/2026-01-06.csv is another file", self.verify("r.jsonl")[1][0])

    def test_a_receipt_that_cannot_be_written(self) -> None:
        ran = run_desk("explain", "--receipt", "none/r.jsonl", "check", "1.txt")
        self.assertEqual((ran.status, ran.output), (4, ""))
        self.assertIn("none/r.jsonl was not written: No such file", ran.errors)

    def test_a_receipt_that_does_not_fit_leaves_those_before_it(self) -> None:
        words = ("explain", "--receipt", "r.jsonl", "check", "1.txt")
        self.assertEqual(run_desk(*words).status, 0)
        before = Path("r.jsonl").read_bytes()
        limit = resource.getrlimit(resource.RLIMIT_FSIZE)
        resource.setrlimit(resource.RLIMIT_FSIZE, (len(before) + 10, limit[1]))
        try:
            self.assertEqual(run_desk(*words).status, 4)
        finally:
            resource.setrlimit(resource.RLIMIT_FSIZE, limit)
        self.assertEqual(Path("r.jsonl").read_bytes(), before)

    def test_a_file_with_something_else_stays(self) -> None:
        book = self.file("0.txt", "portfolio 4;").read_bytes()
        ran = run_desk("explain", "--receipt", "0.txt", "check", "0.txt")
        self.assertEqual((ran.status, ran.output), (4, ""))
        self.assertIn("0.txt is there, and is no file of receipts", ran.errors)
        self.assertEqual(Path("0.txt").read_bytes(), book)


class Sums(unittest.TestCase):
    def test_nothing_is_as_nothing(self) -> None:
        self.assertFalse(Sum("a").is_as(Sum("a")))
        self.assertTrue(Sum.of("a", b"x").is_as(Sum.of("b", b"x")))


if __name__ == "__main__":
    unittest.main()
