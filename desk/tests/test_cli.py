"""The command itself: its subcommands, their words, and that no traceback reaches a user."""

import io
import os
import resource
import subprocess
import sys
import unittest
from types import ModuleType
from unittest import mock

from tests.support import DESK, Room, run_desk, the_program
from tilugba import cli
from tilugba.desk import Desk
from tilugba.program import Stop

HEADER = "label,day,value\n"


def a_module(run: object) -> ModuleType:
    module = ModuleType("a_module", "Does something.\n\nAnd says how.")
    module.configure = lambda parser: parser.add_argument("word")
    module.run = run
    return module


class Subcommands(unittest.TestCase):
    def run_one(self, run: object, *words: str) -> tuple[int, str, str]:
        with mock.patch.object(cli, "names", return_value=["some"]), mock.patch.object(
            cli, "module_of", return_value=a_module(run)
        ):
            ran = run_desk(*words)
            return ran.status, ran.output, ran.errors

    def test_a_run(self) -> None:
        def run(arguments, desk):
            desk.write(arguments.word, b"\n")
            return 6

        self.assertEqual(self.run_one(run, "some", "said"), (6, "said\n", ""))

    def test_a_stop_is_one_line(self) -> None:
        def run(arguments, desk):
            raise Stop(7, "a table\nis bad")

        self.assertEqual(
            self.run_one(run, "some", "x"), (7, "", "tilugba-desk some: a table is bad\n")
        )

    def test_help(self) -> None:
        status, output, _ = self.run_one(None, "some", "--help")
        self.assertEqual(status, 0)
        for said in ("Does something.", "And says how.", "--program PROGRAM", "--seconds N"):
            self.assertIn(said, output)
        status, output, _ = self.run_one(None, "--help")
        self.assertEqual(status, 0)
        self.assertIn("some              Does something.", output)

    def test_wrong_words(self) -> None:
        for words, said in [
            ((), "a subcommand is missing"),
            (("other",), "there is no subcommand other; it is one of: some"),
            (("--other",), "--other"),
            (("some",), "word"),
            (("some", "x", "--seconds", "0"), "--seconds"),
        ]:
            with self.subTest(words=words):
                status, output, errors = self.run_one(None, *words)
                self.assertEqual((status, output), (2, ""))
                self.assertIn(said, errors)

    def test_every_subcommand_has_a_summary(self) -> None:
        for name in cli.names():
            self.assertRegex(cli.summary_of(cli.module_of(name))[0], r"^[A-Z].*[.]$")


class Processes(Room):
    def test_no_traceback(self) -> None:
        script = (
            "import sys; from tilugba import cli; cli.run = lambda *words: 1 / 0; "
            "sys.exit(cli.main())"
        )
        ran = subprocess.run(
            [sys.executable, "-c", script], cwd=DESK, capture_output=True, text=True
        )
        self.assertEqual(ran.returncode, 70)
        self.assertEqual(
            ran.stderr,
            "tilugba-desk: this should not happen: ZeroDivisionError: division by zero\n",
        )

    def test_a_file_with_a_name_of_any_bytes(self) -> None:
        """Standard output has the bytes of the name, and Python has no word of its own for them."""
        out = io.BytesIO()
        Desk("some", self.folder, output=out).write(os.fsdecode(b"b\xfcch.txt:1:1: \xc3\xbc\n"))
        self.assertEqual(out.getvalue(), b"b\xfcch.txt:1:1: \xc3\xbc\n")

    def test_parts_are_written_as_they_are_made(self) -> None:
        out = io.BytesIO()

        def parts():
            for number in range(3):
                yield f"{number}\n"
                self.assertEqual(out.getvalue().count(b"\n"), number + 1)

        Desk("some", self.folder, output=out).write_each(parts())
        self.assertEqual(out.getvalue(), b"0\n1\n2\n")

    def test_output_that_cannot_be_written(self) -> None:
        """A disk that is full, and a pipe that nobody reads: one line, and Python says no more at
        its end.
        """
        book = self.file("book.txt", "portfolio 1; amounts 2;" + "# a comment\n" * 20_000)
        reader, writer = os.pipe()
        os.close(reader)
        for output in (os.open("/dev/full", os.O_WRONLY), writer):
            ran = subprocess.run(
                [DESK / "tilugba-desk", "format", book],
                stdout=output,
                stderr=subprocess.PIPE,
                text=True,
            )
            os.close(output)
            self.assertEqual(ran.returncode, 4)
            self.assertEqual(ran.stderr.count("\n"), 1)
            self.assertIn("tilugba-desk format: the output was not written whole", ran.stderr)

    def test_output_of_which_a_part_is_written(self) -> None:
        """A disk that is full behind the first bytes, also if Python is asked not to buffer."""
        book = self.file("book.txt", "portfolio 1; amounts 2;" + "# a comment\n" * 20_000)
        for more in ({}, {"PYTHONUNBUFFERED": "1"}):
            with self.subTest(more=more), open(self.folder / "out", "wb") as output:
                ran = subprocess.run(
                    [DESK / "tilugba-desk", "format", book],
                    stdout=output,
                    stderr=subprocess.PIPE,
                    env={**os.environ, **more},
                    preexec_fn=lambda: resource.setrlimit(resource.RLIMIT_FSIZE, (20_000, 20_000)),
                )
                self.assertEqual(ran.returncode, 4)
                self.assertIn(b"the output was not written whole: File too large", ran.stderr)

    def test_streams_that_are_closed(self) -> None:
        """One line where there is a stream for it, and the same status where there is none."""
        table = self.file("table.csv", "label,day,value\nA,0,1\n")
        closed = "the output was not written whole: it is closed"
        for words, streams, status, said in [
            (("fill-days", table), ">&-", 4, f"tilugba-desk fill-days: {closed}\n"),
            (("fill-days", table), ">&- 2>&-", 4, ""),
            (("fill-days", self.folder / "none"), "2>&-", 3, ""),
            (("fill-days",), "2>&-", 2, ""),
            (("language-server",), "<&-", 70, "an editor talks to it on standard input"),
            (("language-server",), ">&-", 70, "an editor talks to it on standard input"),
        ]:
            with self.subTest(words=words, streams=streams):
                script = f'exec "$0" "$@" {streams}'
                ran = subprocess.run(
                    ["sh", "-c", script, DESK / "tilugba-desk", *words],
                    input="",
                    capture_output=True,
                    text=True,
                )
                self.assertEqual((ran.returncode, ran.stdout), (status, ""))
                self.assertEqual(ran.stderr.count("\n"), 1 if said else 0)
                self.assertIn(said, ran.stderr)

    def test_no_file_gets_the_number_of_a_closed_stream(self) -> None:
        """Output that is closed is output that cannot be written, and no file gets its number."""
        book = self.file("book.txt", "portfolio 1; amounts 2;")
        table = self.file("table.csv", HEADER)
        for words in (("explain", "migrate"), ("needs", "--until", "0", table)):
            for closed, status in (((1,), 4), ((0, 1, 2), 4), ((0, 2), 0)):
                with self.subTest(words=words, closed=closed):
                    ran = subprocess.run(
                        [DESK / "tilugba-desk", *words[:3], book, *words[3:]],
                        stdin=subprocess.DEVNULL,
                        capture_output=True,
                        timeout=60,
                        preexec_fn=lambda closed=closed: [os.close(it) for it in closed],
                    )
                    self.assertEqual((ran.returncode, bool(ran.stdout)), (status, status == 0))
                    self.assertEqual(ran.stderr.count(b"\n"), closed == (1,))

    def test_files_of_a_process_without_streams(self) -> None:
        """The program reads the files that it is given, whichever stream is closed."""
        book = self.file("book.txt", "portfolio 1; amounts 2; party A, B; asset EUR;\n")
        table = self.file("table.csv", "label,day,value\n")
        for streams in "<&-", ">&-", "2>&-", "<&- >&-", "<&- >&- 2>&-":
            with self.subTest(streams=streams):
                ran = subprocess.run(
                    ["sh", "-c", f'exec "$0" "$@" {streams}', DESK / "tilugba-desk"]
                    + ["lint", book, table, "--program", the_program().path, "--seconds", "60"],
                    capture_output=True,
                    text=True,
                )
                is_closed = ">&-" in streams.split()
                self.assertEqual(ran.returncode, 4 if is_closed else 1, ran.stderr)
                self.assertEqual(ran.stdout.count("no contract has"), 0 if is_closed else 3)

    def test_the_script_runs_from_any_folder(self) -> None:
        link = self.folder / "td"
        link.symlink_to(DESK / "tilugba-desk")
        ran = subprocess.run([link, "--help"], cwd=self.folder, capture_output=True, text=True)
        self.assertEqual((ran.returncode, ran.stderr), (0, ""))
        self.assertTrue(ran.stdout.startswith("usage: tilugba-desk SUBCOMMAND"))
