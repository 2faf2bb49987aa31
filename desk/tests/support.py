"""What the tests share: the program that they run, the example texts, and runs of a subcommand."""

from __future__ import annotations

import io
import os
import stat
import tempfile
import time
import unittest
from contextlib import redirect_stderr, redirect_stdout
from dataclasses import dataclass
from pathlib import Path

from tilugba import cli, program
from tilugba.program import Program

TOP = Path(__file__).resolve().parents[2]
EXAMPLES = TOP / "examples"
CASES = TOP / "tests" / "cases"
DESK = TOP / "desk"


# What `a_loop` takes of a processor of 2.5 GHz that does nothing else.
QUIET_LOOP = 0.06


def a_loop() -> None:
    sum(number * number for number in range(1_000_000))


def slowness() -> float:
    """How many times as long as on a quiet machine Python takes here and now, and at least 1:
    processors that others use too are slower. Limits of time are stretched by that, so that they
    tell of the code and not of the machine.
    """
    taken = []
    for _ in range(5):
        start = time.process_time()
        a_loop()
        taken.append(time.process_time() - start)
    return max(min(taken) / QUIET_LOOP, 1.0)


def the_program() -> Program:
    """The program that the tests run, named by TILUGBA or found as a command finds it."""
    return program.find(None, DESK, seconds=60)


class Room(unittest.TestCase):
    """A test with a folder of its own."""

    def setUp(self) -> None:
        self.folder = Path(self.enterContext(tempfile.TemporaryDirectory()))

    def file(self, name: str, text: str | bytes) -> Path:
        """A file of the folder with this text."""
        path = self.folder / name
        path.write_bytes(text if isinstance(text, bytes) else text.encode())
        return path

    def script(self, name: str, text: str) -> Path:
        """A file of the folder that can be run."""
        path = self.file(name, text)
        path.chmod(path.stat().st_mode | stat.S_IXUSR)
        return path


@dataclass(frozen=True)
class Ran:
    """How a subcommand ended, and what it printed."""

    status: int
    output: str
    errors: str


class Stream(io.TextIOWrapper):
    """A stream of text over bytes that are kept."""

    def __init__(self) -> None:
        super().__init__(io.BytesIO(), encoding="utf-8", write_through=True)

    def text(self) -> str:
        self.flush()
        return self.buffer.getvalue().decode()


def run_desk(*words: str | os.PathLike[str], beside: Path = DESK) -> Ran:
    """Runs `tilugba-desk` with these words in this process."""
    out, errors = Stream(), Stream()
    with redirect_stdout(out), redirect_stderr(errors):
        try:
            status = cli.run([os.fspath(word) for word in words], beside)
        except SystemExit as ended:
            status = int(ended.code or 0)
    return Ran(int(status), out.text(), errors.text())
