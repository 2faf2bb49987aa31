"""Calls that are asked elsewhere: as tasks of Slurm, run here one by one, and over Dask, of
which a stand-in takes the place.
"""

import json
import os
import subprocess
import sys
import types
import unittest
from pathlib import Path
from unittest import mock

from tests.member import Member
from tests.support import Ran, Room, run_desk, the_program
from tilugba.asking import by_dask, by_slurm
from tilugba.asking.asks import Ask, sum_of_engine
from tilugba.engines import Runs
from tilugba.program import Answer, Stop

FIRST, LAST, TO = "2026-01-05", "2026-01-08", "2028-01-01"
SMALL = Member(contracts=9, parties=3, assets=2, days=5)


class Elsewhere(Room):
    def setUp(self) -> None:
        super().setUp()
        SMALL.write(self.folder)
        self.files = [self.folder / name for name in ("book.txt", "fixings.csv", "curve.csv")]
        self.out = self.folder / "array"
        self.program = str(the_program().path)

    def history(self, *words: str | Path, program: str | None = None) -> Ran:
        named = "--program", program or self.program
        return run_desk("history", *self.files, FIRST, LAST, "--rates-to", TO, *named, *words)


class Slurm(Elsewhere):
    def setUp(self) -> None:
        super().setUp()
        self.enterContext(mock.patch.object(by_slurm, "CALLS", 20))
        self.wanted = self.history().output

    def task(self, number: int) -> int:
        """Runs a task as a node does."""
        how = {"env": {**os.environ, "SLURM_ARRAY_TASK_ID": str(number)}, "capture_output": True}
        return subprocess.run([self.out / "task"], **how).returncode

    def counted(self) -> str:
        """A stand-in that notes what it is asked, for what is not the same program."""
        self.log = self.file("log", "")
        return str(
            self.script("counted", f'#!/bin/sh\necho "$1" >>{self.log}\nexec {self.program} "$@"\n')
        )

    def test_the_same_bytes(self) -> None:
        ran = self.history("--slurm", self.out)
        count = -(-(self.wanted.count("\n") - 1) // 20)
        told = f"{count} tasks; run {self.out}/submit, and then "
        told += "the same words with --keep instead of --slurm\n"
        self.assertEqual((ran.status, ran.output, ran.errors), (0, told, ""))
        self.assertIn(f"--array=1-{count} ", (self.out / "submit").read_text())
        self.assertEqual([self.task(number) for number in range(1, count + 1)], [0] * count)
        self.assertEqual(self.history("--keep", self.out).output, self.wanted)
        self.assertTrue(
            self.history("--slurm", self.out).output.startswith("0 tasks; all is answered")
        )

    def test_tasks_that_did_not_run(self) -> None:
        """What is missing is asked where the table is printed, or in a second array. A task that
        runs twice does no harm.
        """
        program = self.counted()
        self.history("--slurm", self.out, program=program)
        self.assertEqual([self.task(1), self.task(1), self.task(99)], [0, 0, 3])
        self.history("--slurm", self.out, program=program)
        calls = [len(json.loads(it.read_text())["calls"]) for it in (self.out / "asks").iterdir()]
        self.assertEqual(sum(calls), self.wanted.count("\n") - 1 - 20)
        self.log.write_text("")
        self.assertEqual(self.history("--keep", self.out, program=program).output, self.wanted)
        self.assertEqual(self.log.read_text().split().count("value"), sum(calls) + 1)

    def test_another_program(self) -> None:
        self.history("--slurm", self.out)
        ran = run_desk("answer-part", self.out, "1", "--program", self.counted())
        self.assertEqual((ran.status, ran.output), (70, ""))
        self.assertIn("is for another library or program than that of this node", ran.errors)

    def test_faults_are_told_where_the_table_is_printed(self) -> None:
        self.files[1].write_text("label,day,value\n")
        self.assertEqual(self.history("--slurm", self.out).status, 0)
        self.assertEqual(self.task(1), 0)
        ran = self.history("--keep", self.out)
        self.assertEqual((ran.status, ran.output, "fault missing" in ran.errors), (8, "", True))

    def test_files_of_asks_that_are_none(self) -> None:
        self.history("--slurm", self.out)
        for text in "", "{}", "[]", '{"engine": 1}':
            (self.out / "asks" / "1.json").write_text(text)
            ran = run_desk("answer-part", self.out, "1", "--program", self.program)
            self.assertIn(ran.status, (7, 70))
            self.assertEqual(ran.errors.count("\n"), 1)

    def test_scripts_of_ones_own_stay(self) -> None:
        self.out.mkdir()
        (self.out / "task").write_text("mine")
        ran = self.history("--slurm", self.out)
        self.assertEqual((ran.status, ran.output, (self.out / "task").read_text()), (4, "", "mine"))
        self.assertIn("is there already, and is not written over", ran.errors)

    def test_words(self) -> None:
        self.assertEqual(self.history("--slurm", self.out, "--keep", self.out).status, 2)
        self.assertEqual(self.history("--slurm", self.out, "--dask", "tcp://x").status, 2)

    def test_a_set(self) -> None:
        table = self.file(
            "set.csv",
            "scenario,label,day,value\n"
            + "".join(f"s{n},Default,{d},false\n" for n in range(3) for d in range(3)),
        )
        book = self.file(
            "small.txt",
            SMALL.book().partition("contract c000")[0]
            + "contract c = after(3, pay(EUR, Member, Client_1));\n",
        )
        words = [
            "exposure",
            book,
            table,
            self.files[2],
            FIRST,
            LAST,
            "--mean",
            "floor",
            "--program",
            self.program,
        ]
        wanted = run_desk(*words).output
        self.assertIn("1 task; run", run_desk(*words, "--slurm", self.out).output)
        self.assertEqual(self.task(1), 0)
        self.assertEqual(run_desk(*words, "--keep", self.out).output, wanted)


class Future:
    """An answer that is there, or an exception."""

    def __init__(self, made: object) -> None:
        self.made = made

    def result(self, timeout: float) -> object:
        if isinstance(self.made, Exception):
            raise self.made
        return self.made


class Client:
    """A cluster with a worker in this process. What it gives is kept as Dask would: in another
    order, and piece by piece.
    """

    workers = {"tcp://one": 1}
    fails: Exception | None = None

    def __init__(self, address: str, timeout: float) -> None:
        if address == "tcp://nobody":
            raise OSError("Timed out trying to connect\nand more")

    def nthreads(self) -> dict[str, int]:
        return self.workers

    def submit(self, function: object, piece: list[Ask], pure: bool) -> Future:
        return Future(self.fails or function(piece))

    def close(self) -> None:
        pass


class Late(Exception):
    """What Dask raises if an answer is not there in time."""


class OverDask(Elsewhere):
    def setUp(self) -> None:
        super().setUp()
        module = types.SimpleNamespace(Client=Client, TimeoutError=Late)
        self.enterContext(mock.patch.dict(sys.modules, {"distributed": module}))
        self.enterContext(
            mock.patch.dict(os.environ, {"TILUGBA": self.program, "TILUGBA_LIBRARY": ""})
        )
        by_dask.engine_here.cache_clear()
        self.addCleanup(by_dask.engine_here.cache_clear)

    def refused(self, said: str, *words: str) -> None:
        ran = self.history(*words)
        self.assertEqual((ran.status, ran.output, ran.errors.count("\n")), (70, "", 1))
        self.assertIn(said, ran.errors)

    def test_the_same_bytes(self) -> None:
        ran = self.history("--dask", "tcp://one")
        self.assertEqual((ran.status, ran.errors, ran.output), (0, "", self.history().output))

    def test_what_can_go_wrong(self) -> None:
        self.refused(
            "there is no cluster at tcp://nobody: OSError: Timed out trying to connect",
            "--dask",
            "tcp://nobody",
        )
        with mock.patch.object(Client, "fails", KeyError("a worker\nsays this")):
            self.refused("tcp://one: KeyError: ", "--dask", "tcp://one")
        with mock.patch.object(Client, "fails", Late()), mock.patch.object(Client, "workers", {}):
            self.refused("tcp://one has no worker left", "--dask", "tcp://one")
        with mock.patch.object(
            by_dask, "engine_here", return_value=(Runs(the_program()), "another")
        ):
            self.refused(
                "a worker of tcp://one has another library or program", "--dask", "tcp://one"
            )

    def test_without_dask(self) -> None:
        with mock.patch.dict(sys.modules, {"distributed": None}):
            self.refused("--dask needs distributed, which is not installed", "--dask", "tcp://one")

    def test_pieces_go_out_as_they_are_taken(self) -> None:
        """A cluster is not given more than its workers can soon do."""
        engine, taken = Runs(the_program()), []
        ask = Ask(("check", "book"), (("book", self.files[0].read_bytes()),))

        def work() -> object:
            for number in range(20):
                taken.append(number)
                yield [ask]

        answers = by_dask.Dask("tcp://one", sum_of_engine(engine)).answers(work())
        self.assertIsInstance(next(answers)[0], Answer)
        self.assertLess(len(taken), 6)
        answers.close()


class Kinds(unittest.TestCase):
    def test_what_answers_has_a_file(self) -> None:
        with self.assertRaises(Stop):
            sum_of_engine(Runs(types.SimpleNamespace(path=Path("/none"))))


if __name__ == "__main__":
    unittest.main()
