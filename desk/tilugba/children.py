"""Calls in a child with limits, for texts of strangers: a call cannot be interrupted, but a process
can be ended.

The child reads the call from its standard input and writes the answer to its standard output, both
as pickles of plain values.
"""

from __future__ import annotations

import os
import pickle
import resource
import signal
import subprocess
import sys
from contextlib import suppress
from dataclasses import dataclass
from pathlib import Path

from .engines import Engine, Files, Words, find
from .errors import NoAnswer, TilugbaError, TimeLimit
from .program import Answer, signal_name

PACKAGES = str(Path(__file__).resolve().parents[1])
BEGIN = "import sys; sys.path.insert(0, sys.argv[1]); from tilugba.children import main; main()"
STATUS_OF_SPACE = "/proc/self/statm"


@dataclass(frozen=True)
class Limited:
    """Runs each call in a child of its own that ends after so many seconds, and gets so many bytes
    of memory beyond what Python has.
    """

    seconds: float | None = None
    memory: int | None = None

    def answer(self, words: Words, files: Files) -> Answer:
        pipes = {"stdin": subprocess.PIPE, "stdout": subprocess.PIPE, "stderr": subprocess.PIPE}
        child = subprocess.Popen(
            [sys.executable, "-c", BEGIN, PACKAGES], start_new_session=True, **pipes
        )
        try:
            output, said = child.communicate(
                pickle.dumps((list(words), dict(files), self.memory)), self.seconds
            )
        except subprocess.TimeoutExpired as error:
            raise TimeLimit(
                f"the call was ended: it took more than {self.seconds:g} seconds"
            ) from error
        finally:
            end(child)
        if child.returncode < 0:
            raise NoAnswer(f"the child was killed by signal {signal_name(-child.returncode)}")
        if child.returncode:
            lines = said.decode("utf-8", "replace").splitlines()
            raise NoAnswer(f"the child gave no answer{': ' + lines[-1] if lines else ''}")
        told = pickle.loads(output)
        if isinstance(told, TilugbaError):
            raise told
        return Answer(*told)


def end(child: subprocess.Popen[bytes]) -> None:
    """Ends a child with all that it has started."""
    if child.returncode is None:
        with suppress(ProcessLookupError):
            os.killpg(child.pid, signal.SIGKILL)
        child.communicate()


def limit_memory(more: int) -> None:
    """So many bytes more than this process has now. What is refused beyond them is told as the
    status of a call.
    """
    with open(STATUS_OF_SPACE, encoding="ascii") as file:
        now = int(file.read().split()[0]) * resource.getpagesize()
    resource.setrlimit(resource.RLIMIT_AS, (now + more, now + more))


def main() -> None:
    """The child: one call."""
    words, files, memory = pickle.load(sys.stdin.buffer)
    told: object
    try:
        engine: Engine = find()
        if memory is not None:
            limit_memory(memory)
        answer = engine.answer(words, files)
        told = (answer.status, answer.output)
    except TilugbaError as error:
        told = error
    with open(1, "wb", closefd=False) as output:
        output.write(pickle.dumps(told))
