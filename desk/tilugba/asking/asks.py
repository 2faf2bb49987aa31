"""A call of the program that is one of many: what it is, and what its answer depends on."""

from __future__ import annotations

import hashlib
from collections.abc import Iterable, Iterator, Sequence
from dataclasses import dataclass
from functools import lru_cache
from itertools import islice
from pathlib import Path
from typing import TypeVar

from ..engines import Engine, Library, Runs
from ..program import Answer, Status, Stop, reason_of

# How many calls are sent away as one. A call takes a tenth of a millisecond by the library.
PIECE = 64
Item = TypeVar("Item")


@lru_cache(maxsize=1 << 12)
def sum_of(data: bytes) -> str:
    """The SHA-256 of bytes. Files that many calls share are summed once."""
    return hashlib.sha256(data).hexdigest()


@dataclass(frozen=True, slots=True)
class Ask:
    """A call: its words, and the files that they name."""

    words: tuple[str, ...]
    files: tuple[tuple[str, bytes], ...]

    def key(self, engine: str) -> str:
        """What the answer depends on: the words, the bytes of each file, and the sum of what
        answers.
        """
        told = [engine, *self.words, "", *(f"{name} {sum_of(data)}" for name, data in self.files)]
        return hashlib.sha256("\0".join(told).encode("utf-8", "surrogateescape")).hexdigest()

    def answer(self, engine: Engine) -> Answer:
        return engine.answer(self.words, dict(self.files))


def answer_all(engine: Engine, piece: Sequence[Ask]) -> list[Answer]:
    """The answers of a piece of work, in order."""
    return [ask.answer(engine) for ask in piece]


def pieces(items: Iterable[Item], size: int = PIECE) -> Iterator[list[Item]]:
    """Items in lists of so many; the last one may be shorter."""
    rest = iter(items)
    while piece := list(islice(rest, size)):
        yield piece


def path_of(engine: Engine) -> Path:
    """The file of the library or of the program that answers."""
    if isinstance(engine, Library):
        return engine.native.path
    if isinstance(engine, Runs):
        return engine.program.path
    raise TypeError(f"{engine} is no file")


def sum_of_engine(engine: Engine) -> str:
    """The SHA-256 of what answers."""
    path = path_of(engine)
    try:
        with open(path, "rb") as file:
            return hashlib.file_digest(file, "sha256").hexdigest()
    except OSError as error:
        raise Stop(Status.DESK, f"{path}: {reason_of(error)}") from error
