"""What a subcommand works with: the program, and where it prints."""

from __future__ import annotations

import errno
import os
import sys
from collections.abc import Iterable
from contextlib import suppress
from functools import cached_property
from pathlib import Path
from typing import TYPE_CHECKING, BinaryIO, TextIO

from . import program
from .program import Going, Program, Status, Stop, reason_of

if TYPE_CHECKING:
    from .engines import Engine

COMMAND = "tilugba-desk"


class Desk:
    """One run of a subcommand. `beside` is the folder of the command itself; the program is looked
    for when it is first asked for.
    """

    def __init__(
        self,
        name: str,
        beside: Path,
        program_path: str | None = None,
        seconds: float | None = None,
        output: BinaryIO | None = None,
        errors: BinaryIO | None = None,
        going: Going | None = None,
    ) -> None:
        self.name = name
        self.beside = beside
        self.program_path = program_path
        self.seconds = seconds
        self.output = output
        self.errors = errors
        # The runs of the program that go on, here and in threads.
        self.going = going or Going()

    @cached_property
    def program(self) -> Program:
        found = program.find(self.program_path, self.beside, self.seconds)
        return found._replace(going=self.going)

    @cached_property
    def engine(self) -> Engine:
        """What answers calls by the thousand: the library, unless a program or a limit is named, or
        there is no library.
        """
        from . import engines

        path = None if self.program_path or self.seconds else engines.library_path()
        try:
            return engines.Library(path) if path else engines.Runs(self.program)
        except ImportError as error:
            raise Stop(Status.DESK, str(error)) from error

    def write(self, *parts: str | bytes) -> None:
        """Writes to standard output, whole, or ends the command with 4."""
        self.write_each(parts)

    def write_each(self, parts: Iterable[str | bytes]) -> None:
        """Writes parts as they are made, of which there may be more than memory holds."""
        out = self.output or bytes_of(sys.stdout)
        if out is None:
            raise Stop(Status.NOT_WRITTEN, "the output was not written whole: it is closed")
        try:
            out.writelines(encoded(part) if isinstance(part, str) else part for part in parts)
            out.flush()
        except OSError as error:
            give_up(out)
            why = "it is closed" if error.errno == errno.EBADF else reason_of(error)
            raise Stop(Status.NOT_WRITTEN, f"the output was not written whole: {why}") from error

    def tell(self, lines: Iterable[str]) -> None:
        """Writes lines to standard error; what cannot be written there is lost."""
        out = self.errors or bytes_of(sys.stderr)
        if out is None:
            return
        try:
            out.writelines(os.fsencode(line) + b"\n" for line in lines)
            out.flush()
        except OSError:
            give_up(out)

    def complain(self, message: str) -> None:
        """Says in one line why the subcommand ends."""
        told = message.replace("\n", " ")
        self.tell([f"{COMMAND} {self.name}: {told}" if self.name else f"{COMMAND}: {told}"])


def bytes_of(stream: TextIO | None) -> BinaryIO | None:
    """What takes the bytes of a standard stream; nothing if this process was started without it."""
    return None if stream is None else stream.buffer


def one_line(text: str) -> str:
    """A text of others as it is told on a line of its own: what cannot be shown is a `?`."""
    return "".join(it if it.isprintable() else "?" for it in text)


def encoded(text: str) -> bytes:
    """The bytes of what is printed. The name of a file in it may be bytes that are not UTF-8."""
    return text.encode("utf-8", "surrogateescape")


def give_up(out: BinaryIO) -> None:
    """What is left to write to a stream is lost, and Python does not try it once more at its end.
    """
    with suppress(OSError, ValueError):
        nowhere = os.open(os.devnull, os.O_WRONLY)
        os.dup2(nowhere, out.fileno())
        os.close(nowhere)
