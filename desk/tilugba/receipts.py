"""Receipts: for an answer a line of JSON that says what it was made of, by names, sizes and
SHA-256 sums.

A receipt proves nothing. It says which bytes to compare, and which words to run again.
"""

from __future__ import annotations

import datetime
import errno
import hashlib
import json
import os
from collections.abc import Iterator, Sequence
from dataclasses import asdict, dataclass, field
from functools import cache
from pathlib import Path

from .program import NAME, Status, Stop, reason_of

# The form of a receipt, and who answered: the program, or the desk beside it.
FORM = 1
PROGRAM, DESK = NAME, "tilugba-desk"
PACKAGE = Path(__file__).resolve().parent
# What each line begins with.
BEGINNING = b'{"by": "'


@dataclass(frozen=True)
class Sum:
    """A file, or what was printed: its name, if it has one, its size in bytes and its SHA-256."""

    name: str | None
    size: int | None = None
    sha256: str | None = None

    @classmethod
    def of(cls, name: str | None, data: bytes) -> Sum:
        return cls(name, len(data), hashlib.sha256(data).hexdigest())

    @classmethod
    def of_file(cls, path: str | os.PathLike[str]) -> Sum:
        """The sum of a file; of one that is not read it is nothing."""
        try:
            with open(path, "rb") as file:
                total = hashlib.file_digest(file, "sha256").hexdigest()
                return cls(os.fspath(path), os.fstat(file.fileno()).st_size, total)
        except (OSError, ValueError):
            return cls(os.fspath(path))

    def is_as(self, other: Sum) -> bool:
        """Whether both are of the same bytes."""
        return self.sha256 is not None and (self.size, self.sha256) == (other.size, other.sha256)


@dataclass(frozen=True)
class Receipt:
    """What an answer was made of: who was asked with which words, over which files, and how it
    ended.

    `output` is what was printed. It has a name if it is in a file of that name, and nothing is
    known of it if a run was killed. `time` is when the answer was there, in UTC.
    """

    by: str
    words: list[str]
    files: list[Sum]
    program: Sum
    output: Sum | None
    status: int
    fault: str | None
    time: str
    desk: str | None = None
    form: int = field(default=FORM)

    @property
    def line(self) -> str:
        return json.dumps(asdict(self)) + "\n"

    @property
    def told(self) -> str:
        """The command on one line."""
        return " ".join([self.by, *self.words])


def now(seconds: float | None = None) -> str:
    """A time in UTC as receipts have it: that of a clock in seconds, or this moment."""
    zone = datetime.timezone.utc
    moment = (
        datetime.datetime.now(zone)
        if seconds is None
        else datetime.datetime.fromtimestamp(seconds, zone)
    )
    return moment.strftime("%Y-%m-%dT%H:%M:%SZ")


@cache
def sum_of_desk() -> str:
    """The SHA-256 of the modules of this package, by their names."""
    total = hashlib.sha256()
    for path in sorted(PACKAGE.rglob("*.py")):
        name, sum_of_file = path.relative_to(PACKAGE), hashlib.sha256(path.read_bytes())
        total.update(f"{name} {sum_of_file.hexdigest()}\n".encode())
    return total.hexdigest()


def add(path: Path, receipt: Receipt) -> None:
    """Adds a receipt to a file, behind those that it has. A file with something else stays as it
    is.
    """
    if has_no_receipts(path):
        raise Stop(Status.NOT_WRITTEN, f"{path} is there, and is no file of receipts")
    line = receipt.line.encode()
    try:
        with open(path, "ab", buffering=0) as file:
            written = file.write(line)
            if written < len(line):  # a part of a line would spoil the next one too
                file.truncate(file.tell() - written)
                raise OSError(errno.ENOSPC, os.strerror(errno.ENOSPC))
    except (OSError, ValueError) as error:
        raise Stop(Status.NOT_WRITTEN, f"{path} was not written: {reason_of(error)}") from error


def has_no_receipts(path: Path) -> bool:
    """Whether a file begins with something else than a receipt."""
    if not path.is_file():
        return False
    try:
        with open(path, "rb") as file:
            return file.read(len(BEGINNING)) not in (b"", BEGINNING)
    except OSError:
        return False  # it may perhaps be written, though not read


def receipts_in(path: Path, data: bytes) -> Iterator[Receipt]:
    """The receipts of a file."""
    for number, line in enumerate(data.splitlines(), 1):
        try:
            yield receipt_of(json.loads(line))
        except (ValueError, TypeError, KeyError, RecursionError) as error:
            raise Stop(
                Status.ROW, f"{path}: line {number} is no receipt of this release"
            ) from error


def receipt_of(told: dict) -> Receipt:
    """A receipt out of what a line says, with each field of its type."""
    receipt = Receipt(
        by=told["by"],
        words=list(told["words"]),
        files=[sum_told(it) for it in told["files"]],
        program=sum_told(told["program"]),
        output=None if told["output"] is None else sum_told(told["output"]),
        status=told["status"],
        fault=told["fault"],
        time=told["time"],
        desk=told.get("desk"),
        form=told["form"],
    )
    texts = [receipt.by, receipt.time, *receipt.words]
    if (
        receipt.form != FORM
        or receipt.by not in (PROGRAM, DESK)
        or not all(isinstance(it, str) for it in texts)
    ):
        raise ValueError
    return receipt


def sum_told(told: dict) -> Sum:
    name, size, total = told["name"], told["size"], told["sha256"]
    is_right = (
        isinstance(name, str | None)
        and isinstance(size, int | None)
        and isinstance(total, str | None)
    )
    if not is_right:
        raise ValueError
    return Sum(name, size, total)


def of_program(
    words: Sequence[str],
    files: Sequence[Sum],
    program: Sum,
    output: Sum | None,
    status: int,
    fault: str | None,
) -> Receipt:
    """The receipt of a run of the program that has just ended."""
    return Receipt(PROGRAM, list(words), list(files), program, output, int(status), fault, now())


def of_desk(
    words: Sequence[str], files: Sequence[Sum], program: Sum, output: bytes | None
) -> Receipt:
    """The receipt of what the desk prints, with the sum of the desk itself. A page has none of
    itself.
    """
    printed = None if output is None else Sum.of(None, output)
    return Receipt(DESK, list(words), list(files), program, printed, 0, None, now(), sum_of_desk())
