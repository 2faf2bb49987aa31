"""Finds the program and runs it: an answer with a status and a text. The one place that knows
statuses and fault lines.

A run that does not end with 0 is a `Fault` with its cause, by `Answer.fault` or, raised, by
`Answer.expected`. A program that is missing, hangs or is killed is a `Stop` with a message of one
line.
"""

from __future__ import annotations

import enum
import fcntl
import os
import re
import signal
import subprocess
from collections.abc import Callable, Iterable, Iterator, Mapping, Sequence
from contextlib import contextmanager, suppress
from pathlib import Path
from typing import BinaryIO, NamedTuple

NAME = "tilugba"
VARIABLE = "TILUGBA"
# In a clone: the program that its script runs, which the script notes in the first line.
LOOKED_AT = "built/looked_at"
GREATEST_FILE = 16_777_216


class Status(enum.IntEnum):
    """What a status of the program means; 70 is the desk's own."""

    DONE = 0
    REFUSED = 1
    USAGE = 2
    UNREAD = 3
    NOT_WRITTEN = 4
    TOO_LONG = 5
    TEXT = 6
    ROW = 7
    MISSING = 8
    MEMORY = 9
    UNKNOWN = 10
    DAY = 11
    SCENARIOS = 12
    WORDS = 13
    DESK = 70


class Stop(Exception):
    """Why a command ends: a status, and a message of one line."""

    def __init__(self, status: int, message: str) -> None:
        super().__init__(message)
        self.status = int(status)
        self.message = message


class UnreadFile(NamedTuple):
    """A file was not read: its place among the files of the command, from 1."""

    place: int


class LongFile(NamedTuple):
    """A file is too long."""

    place: int


class BadText(NamedTuple):
    """A text does not parse: the kind of the fault, its line, and its column in bytes, both from 1.
    """

    kind: str
    line: int
    column: int


class UnknownName(NamedTuple):
    """A name on the command line is not declared."""

    name: str


class BadDay(NamedTuple):
    """A day on the command line is out of range."""

    word: str


class Refusal(NamedTuple):
    """A contract, or code, is not accepted: the rule that it breaks, and the node at which it does.
    """

    name: str
    rule: str
    node: int


class BadRow(NamedTuple):
    """A record of a table is refused; a conflict names the earlier record."""

    place: int
    record: int
    kind: str
    earlier: int | None


class MissingFixing(NamedTuple):
    """A fixing is missing, of `scenarios` in a scenario."""

    label: str
    day: int
    scenario: str | None


class TooManyScenarios(NamedTuple):
    """There are too many scenarios for such amounts."""

    count: int


class Acceptance(NamedTuple):
    """What `check` says of an accepted contract, in its own words: `start` may be `always`."""

    name: str
    start: str
    scale: int
    total: str
    horizon: int


Cause = (
    UnreadFile
    | LongFile
    | BadText
    | UnknownName
    | BadDay
    | Refusal
    | BadRow
    | MissingFixing
    | TooManyScenarios
    | None
)
Verdict = Acceptance | Refusal

# What is said of a fault that has no line.
MEANINGS: Mapping[int, str] = {
    Status.REFUSED: "a contract is refused",
    Status.NOT_WRITTEN: "the program did not write its output whole",
    Status.MEMORY: "the program ran out of memory",
    Status.WORDS: "the program was not given its command line, or a word of it is not UTF-8",
    Status.DESK: "the program gave no answer",
}

WORD = "([A-Za-z_][A-Za-z0-9_]*)"
COUNT = "([0-9]+)"
ACCEPTED = rf"{WORD} accepted start ([0-9]+|always) scale {COUNT} total ([0-9.]+) horizon {COUNT}"
NOT_ACCEPTED = rf"{WORD} refused ([a-z]+) node {COUNT}"

# The form of the line of each status that has one, and the cause that its parts make.
LINES: Mapping[int, tuple[str, Callable[..., Cause]]] = {
    Status.REFUSED: (
        rf"fault refused {WORD} ([a-z]+) node {COUNT}",
        lambda name, rule, node: Refusal(name, rule, int(node)),
    ),
    Status.UNREAD: (rf"fault read {COUNT}", lambda place: UnreadFile(int(place))),
    Status.TOO_LONG: (rf"fault too long {COUNT}", lambda place: LongFile(int(place))),
    Status.TEXT: (
        rf"fault text ([a-z0-9]+) line {COUNT} column {COUNT}",
        lambda kind, line, column: BadText(kind, int(line), int(column)),
    ),
    Status.UNKNOWN: (rf"fault unknown {WORD}", UnknownName),
    Status.DAY: (r"fault day (.+)", BadDay),
    Status.ROW: (
        rf"fault row file {COUNT} record {COUNT} ([a-z]+)(?: with {COUNT})?",
        lambda place, record, kind, earlier: BadRow(
            int(place), int(record), kind, int(earlier) if earlier else None
        ),
    ),
    Status.MISSING: (
        rf"fault missing {WORD} (-?[0-9]+)(?: in {WORD})?",
        lambda label, day, scenario: MissingFixing(label, int(day), scenario),
    ),
    Status.SCENARIOS: (rf"fault scenarios {COUNT}", lambda count: TooManyScenarios(int(count))),
}


class Fault(Stop):
    """What a run says that did not end with 0: its status, its line, which may be empty, and the
    cause that the line tells.
    """

    def __init__(self, status: int, line: str) -> None:
        super().__init__(
            status, line or MEANINGS.get(status, f"the program ended with status {status}")
        )
        self.line = line
        form, cause_of = LINES.get(status, ("", None))
        told = re.fullmatch(form, line)
        self.cause: Cause = cause_of(*told.groups()) if told and cause_of else None


class Answer(NamedTuple):
    """How a run ended: its status, what it printed, and what it said on standard error, which the
    program leaves empty.
    """

    status: int
    output: bytes
    said: bytes = b""

    @property
    def text(self) -> str:
        return self.output.decode("utf-8", "replace")

    @property
    def fault(self) -> Fault | None:
        """The fault, if the status is not 0. Of `check` with 1 it has no line, and the verdicts are
        the output.
        """
        if self.status == Status.DONE:
            return None
        line = self.text.rstrip("\n")
        return Fault(self.status, line if line.startswith("fault ") and "\n" not in line else "")

    def expected(self) -> bytes:
        """What was printed by a run that ended with 0; otherwise its fault is raised."""
        if fault := self.fault:
            raise fault
        return self.output

    def verdicts(self) -> list[Verdict]:
        """What `check` printed; of a run that gave no verdicts the fault is raised."""
        if self.status not in (Status.DONE, Status.REFUSED):
            self.expected()
        return [verdict_of(line) for line in self.text.splitlines()]


def verdict_of(line: str) -> Verdict:
    if told := re.fullmatch(ACCEPTED, line):
        name, start, scale, total, horizon = told.groups()
        return Acceptance(name, start, int(scale), total, int(horizon))
    if told := re.fullmatch(NOT_ACCEPTED, line):
        return Refusal(told[1], told[2], int(told[3]))
    raise Stop(Status.DESK, f"check printed a line that is no verdict: {line}")


class Going:
    """The runs that go on, which a command that is stopped ends together. Nothing waits here, so a
    signal may come at any moment.
    """

    def __init__(self) -> None:
        self.processes: set[subprocess.Popen[bytes]] = set()
        self.is_over = False

    @contextmanager
    def has(self, process: subprocess.Popen[bytes]) -> Iterator[None]:
        """A run that goes on meanwhile."""
        self.processes.add(process)
        try:
            if self.is_over:
                kill(process)
            yield
        finally:
            self.processes.discard(process)

    def end(self) -> None:
        """Ends all runs; none begins any more."""
        self.is_over = True
        for process in tuple(self.processes):
            kill(process)


class Program(NamedTuple):
    """The program at a path, and after how many seconds a run is ended; without a number it may
    take as long as it needs. A command knows which runs go on.
    """

    path: Path
    seconds: float | None = None
    going: Going | None = None

    def run(self, *words: str | os.PathLike[str] | bytes) -> Answer:
        """Runs the program on words. Bytes are the contents of a file: the program gets a name for
        them.
        """
        with file_names(words) as (named, handles):
            status, output, said = self.ended([os.fspath(self.path), *named], handles)
        if status < 0:
            raise Stop(
                status_of(status), f"{self.path} was killed by signal {signal_name(-status)}"
            )
        if status == Status.DESK:
            raise Stop(Status.DESK, f"{self.path} gave no answer{last_line(said)}")
        return Answer(status, output, said)

    def ended(self, words: list[str], handles: list[int]) -> tuple[int, bytes, bytes]:
        """Runs words to their end: the status, and what was written. A run that is given up ends
        with all that it started.
        """
        going, pipe = self.going or Going(), subprocess.PIPE
        if going.is_over:
            raise Stop(Status.DESK, "the command was stopped")
        try:
            process = subprocess.Popen(
                words,
                stdin=subprocess.DEVNULL,
                stdout=pipe,
                stderr=pipe,
                pass_fds=handles,
                start_new_session=True,
            )
        except (OSError, ValueError) as error:
            raise Stop(Status.DESK, f"{self.path} does not start: {reason_of(error)}") from error
        try:
            with going.has(process):
                output, said = process.communicate(timeout=self.seconds)
        except subprocess.TimeoutExpired as error:
            end(process)
            raise Stop(
                Status.DESK, f"{self.path} was ended: it took more than {self.seconds:g} seconds"
            ) from error
        except BaseException:
            end(process)
            raise
        return process.returncode, output, said

    def start(self, words: Sequence[str], output: BinaryIO) -> subprocess.Popen[bytes]:
        """Starts a run whose output goes into a file; who starts it waits for it."""
        return subprocess.Popen([self.path, *words], stdin=subprocess.DEVNULL, stdout=output)

    def wait(self, process: subprocess.Popen[bytes]) -> int:
        """The status of a run that was started, where a signal counts 128 more than its number, and
        70 is one that took too long.
        """
        try:
            return status_of(process.wait(self.seconds))
        except subprocess.TimeoutExpired:
            process.kill()
            process.wait()
            return Status.DESK


def end(process: subprocess.Popen[bytes]) -> None:
    """Ends a process and those that it started, and waits for it."""
    kill(process)
    process.communicate()


def kill(process: subprocess.Popen[bytes]) -> None:
    """Ends a process and those that it started, which are a group of their own."""
    with suppress(ProcessLookupError):
        os.killpg(process.pid, signal.SIGKILL)


def status_of(code: int) -> int:
    """The status that a shell tells of a process."""
    return code if code >= 0 else 128 - code


def reason_of(error: Exception) -> str:
    return getattr(error, "strerror", None) or str(error)


def signal_name(number: int) -> str:
    try:
        return signal.Signals(number).name
    except ValueError:
        return str(number)


def last_line(said: bytes) -> str:
    lines = said.decode("utf-8", "replace").splitlines()
    return f": {lines[-1]}" if lines else ""


@contextmanager
def file_names(words: Sequence[str | os.PathLike[str] | bytes]) -> Iterator[
    tuple[list[str], list[int]]
]:
    """The words, with names for those that are bytes, and the handles by which these names are
    opened.
    """
    handles: list[int] = []
    try:
        yield [file_name(word, handles) for word in words], handles
    finally:
        for handle in handles:
            os.close(handle)


def file_name(word: str | os.PathLike[str] | bytes, handles: list[int]) -> str:
    if not isinstance(word, bytes):
        return os.fspath(word)
    opened = os.memfd_create(NAME)
    try:
        # Below 3 are the streams, if this process has none: the program has its own there.
        handle = fcntl.fcntl(opened, fcntl.F_DUPFD_CLOEXEC, 3)
    finally:
        os.close(opened)
    handles.append(handle)
    with open(handle, "wb", closefd=False) as file:
        file.write(word)
    return f"/dev/fd/{handle}"


def find(named: str | None, beside: Path, seconds: float | None = None) -> Program:
    """The program that is named, or else that of the environment, one beside the command, in its
    clone, or in the PATH. If that is the script of a clone, it is what the script runs.
    """
    if given := named or os.environ.get(VARIABLE):
        found = None if os.sep in given else first_program(in_path(given))
        return Program(behind(found or Path(given).absolute()), seconds)
    if found := first_program(candidates(beside)):
        return Program(behind(found), seconds)
    built = f"; in a clone, ./{NAME} builds it" if is_clone(beside.parent) else ""
    raise Stop(
        Status.DESK,
        f"there is no program {NAME}: name it by --program or {VARIABLE}, or put it into the "
        f"PATH{built}",
    )


def first_program(paths: Iterable[Path]) -> Path | None:
    """The first of them that can be run."""
    return next(
        (path.absolute() for path in paths if path.is_file() and os.access(path, os.X_OK)), None
    )


def in_path(name: str) -> Iterator[Path]:
    return (Path(folder) / name for folder in os.get_exec_path())


def is_clone(folder: Path) -> bool:
    return (folder / "crates.txt").is_file()


def candidates(beside: Path) -> Iterator[Path]:
    """Where the program may be. The script of a clone is the last, and only if it has made one,
    which takes minutes.
    """
    yield beside / NAME
    if is_clone(beside.parent):
        yield beside.parent / "built" / NAME
    yield from in_path(NAME)
    if is_clone(beside.parent) and (beside.parent / LOOKED_AT).is_file():
        yield beside.parent / NAME


def behind(path: Path) -> Path:
    """What runs at a path. The script of a clone is asked once, and first makes the program of its
    sources if need be; what it then runs is the program, since a receipt names its bytes. That it
    is not proved the script says itself.
    """
    script = path.resolve()
    if script.name != NAME or not is_clone(script.parent):
        return path
    try:
        asked = subprocess.run(
            [script, "sample", "1"],
            stdin=subprocess.DEVNULL,
            stdout=subprocess.DEVNULL,
            check=False,
        )
    except OSError as error:
        raise Stop(Status.DESK, f"{path} does not start: {reason_of(error)}") from error
    if asked.returncode:
        raise Stop(Status.DESK, f"{path} gave no answer")
    with suppress(OSError, ValueError), open(script.parent / LOOKED_AT, encoding="utf-8") as file:
        return first_program([script.parent / file.readline().strip()]) or path
    return path
