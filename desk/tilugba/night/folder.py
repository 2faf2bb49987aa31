"""The folder of the results of a night run, which one run has at a time.

A result is put there whole, with checksums of what it is and what it was made of. What no night run
has written is left alone.
"""

from __future__ import annotations

import contextlib
import fcntl
import itertools
import os
import re

from ..program import Stop, reason_of
from .books import FAULT, OWN, Book, refused, shown
from .sums import Sums

# The status of a run that finds another one in its folder, that of a temporary failure.
BUSY = 75


def remove(path: str) -> None:
    with contextlib.suppress(FileNotFoundError):
        os.unlink(path)


def foreign(path: str) -> OSError:
    """Why a file is not touched."""
    return OSError(0, f"{shown(os.path.basename(path))} is there, and no night run has written it")


class Folder:
    """The folder, held until the process ends."""

    def __init__(self, out: str) -> None:
        self.out = out
        self.results = Sums()
        self.numbers = itertools.count(1)
        try:
            for name in ("sums", "parts"):
                os.makedirs(self.at(OWN, name), exist_ok=True)
            self.lock = open(self.at(OWN, "lock"), "a", encoding="ascii")
            fcntl.flock(self.lock, fcntl.LOCK_EX | fcntl.LOCK_NB)
            # What a run that was killed has left half written.
            for name in os.listdir(self.at(OWN, "parts")):
                os.unlink(self.at(OWN, "parts", name))
        except BlockingIOError as error:
            raise Stop(BUSY, f"another run has the folder {shown(out)}") from error
        except OSError as error:
            raise refused(
                f"the folder {shown(out)} cannot be written to: {reason_of(error)}"
            ) from error

    def close(self) -> None:
        self.lock.close()

    def at(self, *names: str) -> str:
        return os.path.join(self.out, *names)

    def new_part(self) -> str:
        """The name of a file that is not whole yet."""
        return self.at(OWN, "parts", f"{os.getpid()}.{next(self.numbers)}")

    def put(self, path: str, data: bytes) -> None:
        """Writes a file whole or not at all."""
        part = self.new_part()
        try:
            with open(part, "xb") as file:
                file.write(data)
            os.replace(part, path)
        finally:
            remove(part)

    def has(self, book: Book, key: str) -> bool:
        """Whether the result is there, is as it was written, and was made of what the key tells."""
        try:
            with open(self.at(OWN, "sums", book.name), encoding="ascii") as file:
                return file.read() == f"{key}\n{self.results.of(self.at(book.name))}\n"
        except (OSError, ValueError):
            return False

    def keep(self, book: Book, key: str | None, part: str) -> None:
        """Makes a file the result. The sums come first: a result without them would be nobody's."""
        total = Sums().of(part)
        if not total:
            raise OSError(0, "the result cannot be read")
        self.put(self.at(OWN, "sums", book.name), f"{key}\n{total}\n".encode())
        os.replace(part, self.at(book.name))

    def keep_fault(self, book: Book, status: int, printed: bytes = b"") -> None:
        """Keeps a fault with what was printed."""
        self.put(self.at(book.name + FAULT), f"status {status}\n".encode() + printed)

    def clear(self, book: Book) -> None:
        """Removes what an earlier run has written of a book, so that nothing there is of other
        files than these.
        """
        path = self.at(book.name)
        if os.path.lexists(path):
            if not os.path.exists(self.at(OWN, "sums", book.name)):
                raise foreign(path)
            os.unlink(path)
        self.drop_fault(book)

    def drop_fault(self, book: Book) -> None:
        path = self.at(book.name + FAULT)
        if os.path.lexists(path):
            with open(path, "rb") as file:
                if not re.match(rb"status [0-9]+\n", file.readline(20)):
                    raise foreign(path)
            os.unlink(path)
