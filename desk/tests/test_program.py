"""Finding and running the program, its faults, and programs that are missing, killed or hang."""

import os
import subprocess
import sys
import time
import unittest
from pathlib import Path
from unittest import mock

from tests.support import CASES, DESK, EXAMPLES, Room, the_program
from tilugba import program
from tilugba.program import (
    Acceptance,
    Answer,
    BadDay,
    BadRow,
    BadText,
    Fault,
    LongFile,
    MissingFixing,
    Program,
    Refusal,
    Status,
    Stop,
    TooManyScenarios,
    UnknownName,
    UnreadFile,
)

BOOK = b"""portfolio 1;
amounts 2;
party A, B;
asset EUR;
num FX : 4 in 0.5000 .. 2.0000;
contract c = scale(round(half_even, 2, obs(FX, 0)), pay(EUR, A, B));
"""
TABLE = b"label,day,value\n"


class Runs(Room):
    """Runs of the program itself."""

    def setUp(self) -> None:
        super().setUp()
        self.run_it = the_program().run

    def test_a_file_may_be_bytes(self) -> None:
        answer = self.run_it("flows", BOOK, TABLE + b"FX,0,1.25\n")
        self.assertEqual((answer.status, answer.expected()), (0, b"c,0,A,B,EUR,1.25\n"))

    def test_a_file_may_be_a_path(self) -> None:
        path = self.file("a book.txt", BOOK)
        self.assertEqual(
            self.run_it("check", path).verdicts(), [Acceptance("c", "0", 2, "2.00", 1)]
        )

    def test_bytes_in_a_process_without_streams(self) -> None:
        run = "Program(Path(sys.argv[1]), 30).run('check', sys.argv[2].encode())"
        code = f"""import os, sys
from pathlib import Path
from tilugba.program import Program
os.closerange(0, 3)
os._exit({run}.status)"""
        words = [sys.executable, "-c", code, the_program().path, BOOK.decode()]
        self.assertEqual(subprocess.run(words, cwd=DESK, timeout=60).returncode, 0)

    def causes(self, *words: str | bytes) -> tuple[int, object]:
        with self.assertRaises(Fault) as raised:
            self.run_it(*words).expected()
        return raised.exception.status, raised.exception.cause

    def test_each_fault_has_its_cause(self) -> None:
        missing = str(self.folder / "none.csv")
        cases = [
            (("flows",), Status.USAGE, None),
            (("flows", BOOK, missing), Status.UNREAD, UnreadFile(2)),
            (("check", b"x" * (program.GREATEST_FILE + 1)), Status.TOO_LONG, LongFile(1)),
            (("check", BOOK + b"x"), Status.TEXT, BadText("syntax", 7, 1)),
            (("flows", BOOK, TABLE + b"FX,0,3\n"), Status.ROW, BadRow(2, 2, "bounds", None)),
            (("flows", BOOK, TABLE + b"FX,0,1\nFX,0,2\n"), Status.ROW, BadRow(2, 3, "conflict", 2)),
            (("flows", BOOK), Status.MISSING, MissingFixing("FX", 0, None)),
            (("payoff", BOOK, "--contract", "d"), Status.UNKNOWN, UnknownName("d")),
            (("flows", BOOK, "--until", "2026-01-05"), Status.DAY, BadDay("2026-01-05")),
            (
                ("flows", BOOK.replace(b"round(half_even, 2, obs(FX, 0))", b"1.005")),
                Status.REFUSED,
                Refusal("c", "scale", 0),
            ),
        ]
        for words, status, cause in cases:
            with self.subTest(words=words[0], status=status):
                self.assertEqual(self.causes(*words), (status, cause))

    def test_check_with_1_has_verdicts(self) -> None:
        text = BOOK + b"contract fault = scale(true, pay(EUR, A, B));\n"
        answer = self.run_it("check", text)
        self.assertEqual(answer.status, Status.REFUSED)
        self.assertEqual(answer.verdicts()[1], Refusal("fault", "sort", 0))
        only = (
            b"\n".join(BOOK.split(b"\n")[:5]) + b"\ncontract fault = scale(true, pay(EUR, A, B));\n"
        )
        self.assertIsNone(self.run_it("check", only).fault.cause)

    def test_check_of_no_text_has_no_verdicts(self) -> None:
        with self.assertRaises(Fault):
            self.run_it("check", b"portfolio").verdicts()

    def test_scenarios_have_their_faults(self) -> None:
        code = self.run_it("payoff", BOOK, "--contract", "c").expected()
        words = ["--at", "0", "--from", "A", "--to", "B", "--asset", "EUR", "--mean", "floor"]
        table = b"scenario,label,day,value\nup,FX,1,1\n"
        curve = b"offset,factor\n0,1\n"
        self.assertEqual(
            self.causes("scenarios", code, table, curve, *words), (8, MissingFixing("FX", 0, "up"))
        )
        self.assertEqual(Fault(12, "fault scenarios 11").cause, TooManyScenarios(11))


class Others(Room):
    """Programs that are none."""

    def test_a_program_that_is_missing(self) -> None:
        with self.assertRaises(Stop) as raised:
            Program(self.folder / "none").run("check")
        self.assertEqual(raised.exception.status, Status.DESK)
        self.assertIn("does not start: No such file or directory", raised.exception.message)

    def test_a_program_that_hangs(self) -> None:
        path = self.script("slow", "#!/bin/sh\nexec sleep 60\n")
        with self.assertRaises(Stop) as raised:
            Program(path, seconds=0.2).run("check")
        self.assertEqual(raised.exception.status, Status.DESK)
        self.assertIn("took more than 0.2 seconds", raised.exception.message)

    def test_what_a_program_started_ends_with_it(self) -> None:
        """Another process has the streams of the program, which is given up nevertheless."""
        path = self.script("slow", "#!/bin/sh\nsleep 60\necho\n")
        started = time.monotonic()
        with self.assertRaises(Stop):
            Program(path, seconds=0.2).run("check")
        self.assertLess(time.monotonic() - started, 30)

    def test_a_program_that_is_killed(self) -> None:
        path = self.script("killed", "#!/bin/sh\nkill -9 $$\n")
        with self.assertRaises(Stop) as raised:
            Program(path).run("check")
        self.assertEqual(
            (raised.exception.status, raised.exception.message),
            (137, f"{path} was killed by signal SIGKILL"),
        )

    def test_a_script_that_builds_no_program(self) -> None:
        path = self.script("wrapper", "#!/bin/sh\necho one >&2; echo rt is missing >&2; exit 70\n")
        with self.assertRaises(Stop) as raised:
            Program(path).run("check")
        self.assertEqual(raised.exception.message, f"{path} gave no answer: rt is missing")

    def test_a_word_that_no_process_takes(self) -> None:
        with self.assertRaises(Stop) as raised:
            Program(self.script("any", "#!/bin/sh\n")).run("a\0b")
        self.assertEqual(raised.exception.status, Status.DESK)

    def test_statuses_without_a_line(self) -> None:
        for status in (Status.NOT_WRITTEN, Status.MEMORY, Status.WORDS):
            with self.subTest(status=status):
                self.assertNotIn("\n", Answer(status, b"c,0,A").fault.message)
                self.assertIsNone(Answer(status, b"").fault.cause)


class Finding(Room):
    """Where the program is looked for."""

    def find(self, named: str | None = None, **environment: str) -> Path:
        with mock.patch.dict(os.environ, {"PATH": str(self.folder / "bin"), **environment}):
            if "TILUGBA" not in environment:
                os.environ.pop("TILUGBA", None)
            return program.find(named, self.folder / "clone" / "desk").path

    def test_the_order(self) -> None:
        for folder in ("bin", "clone/desk", "clone/built"):
            (self.folder / folder).mkdir(parents=True)
        self.file("clone/crates.txt", "")
        self.script("clone/tilugba", "#!/bin/sh\n")
        with self.assertRaises(Stop) as raised:
            self.find()
        self.assertIn("there is no program tilugba", raised.exception.message)
        self.assertIn("in a clone, ./tilugba builds it", raised.exception.message)
        for name in ("bin/tilugba", "clone/built/tilugba", "clone/desk/tilugba"):
            path = self.script(name, "#!/bin/sh\n")
            self.assertEqual(self.find(), path)
        self.assertEqual(self.find(TILUGBA="/else/where"), Path("/else/where"))
        self.assertEqual(self.find("/named", TILUGBA="/else/where"), Path("/named"))
        self.assertEqual(self.find("tilugba"), self.folder / "bin/tilugba")

    def test_the_script_of_a_clone(self) -> None:
        """It is asked once, and what it notes is the program."""
        for folder in ("bin", "clone/desk", "clone/built/unproved"):
            (self.folder / folder).mkdir(parents=True)
        self.file("clone/crates.txt", "")
        note = 'echo built/unproved/SUM >"${0%/*}/built/looked_at"'
        script = self.script("clone/tilugba", f'#!/bin/sh\necho "$*" >>"$0.asked"\n{note}\n')
        made = self.script("clone/built/unproved/SUM", "#!/bin/sh\n")
        asked = self.folder / "clone/tilugba.asked"
        with self.assertRaises(Stop):
            self.find()
        self.assertFalse(asked.exists())
        self.assertEqual(self.find(str(script)), made)
        self.assertEqual(asked.read_text(encoding="utf-8"), "sample 1\n")
        self.assertEqual(self.find(), made)
        (self.folder / "linked").symlink_to(script)
        self.assertEqual(self.find(TILUGBA=str(self.folder / "linked")), made)
        made.unlink()
        self.assertEqual(self.find(), script)
        self.script("clone/tilugba", "#!/bin/sh\nexit 70\n")
        with self.assertRaises(Stop) as raised:
            self.find()
        self.assertEqual(raised.exception.message, f"{script} gave no answer")
        self.assertEqual(self.find(TILUGBA="/else/where"), Path("/else/where"))


class Examples(unittest.TestCase):
    """Every example's status and output are those that it must have."""

    def test_examples(self) -> None:
        run = the_program().run
        folders = [path.parent for folder in (CASES, EXAMPLES) for path in folder.glob("*/command")]
        self.assertGreater(len(folders), 100)
        for folder in folders:
            words = os.fsdecode(folder.joinpath("command").read_bytes()).splitlines()
            status = folder / "status"
            wanted = int(status.read_text()) if status.exists() else 0
            with self.subTest(example=folder.name):
                # The first word names a command, even if a file has that name.
                files = [str(folder / it) if (folder / it).exists() else it for it in words[1:]]
                answer = run(*words[:1], *files)
                self.assertEqual(answer.status, wanted)
                self.assertEqual(answer.fault is None, wanted == 0)
                if wanted not in (Status.DONE, Status.REFUSED, Status.USAGE, Status.WORDS):
                    self.assertIsNotNone(answer.fault.cause)
