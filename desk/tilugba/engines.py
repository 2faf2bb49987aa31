"""What answers a call: the library in this process, the program in one of its own, or either of
them in a child with limits.

All take words and named files and give an `Answer`. No file is opened: one that was not named with
its bytes cannot be read.
"""

from __future__ import annotations

import os
import threading
from collections.abc import Mapping, Sequence
from pathlib import Path
from typing import Protocol

from . import command_line, native, program
from .command_line import WrongWords
from .errors import NoAnswer
from .program import Answer, Program, Stop

LIBRARY_VARIABLE = "TILUGBA_LIBRARY"
HERE = Path(__file__).resolve().parent
# A name that no file has.
NOWHERE = "/dev/null/nowhere"

Words = Sequence[str]
Files = Mapping[str, bytes]


class Engine(Protocol):
    """What answers calls, in any number of threads at once."""

    def answer(self, words: Words, files: Files) -> Answer:
        """Runs the command of the words over the files that they name."""


def encoded(word: str) -> bytes:
    return word.encode("utf-8", "surrogateescape")


class Library:
    """The library in this process."""

    def __init__(self, path: str | os.PathLike[str]) -> None:
        self.native = native.Native(path)

    def __reduce__(self) -> tuple[type[Library], tuple[Path]]:
        return Library, (self.native.path,)

    def answer(self, words: Words, files: Files) -> Answer:
        return Answer(
            *self.native.call(
                [encoded(word) for word in words],
                [(encoded(name), text) for name, text in files.items()],
            )
        )


class Runs:
    """The program, in a process for each call; one that gives no answer is a `Stop`."""

    def __init__(self, run: Program) -> None:
        self.program = run

    def answer(self, words: Words, files: Files) -> Answer:
        """The program opens files by names of its own, so words that name files are exchanged for
        those.
        """
        return self.program.run(*exchanged(words, files))


class ByProgram(Runs):
    """The same as a call of Python, in which a `NoAnswer` is raised."""

    def answer(self, words: Words, files: Files) -> Answer:
        try:
            return super().answer(words, files)
        except Stop as stop:
            raise NoAnswer(stop.message) from stop


def exchanged(words: Words, files: Files) -> list[str | bytes]:
    """The words, with the bytes of its file in the place of each name. Of words that none takes no
    file is read.
    """
    try:
        "".join(words).encode()
        form = command_line.read(words)
    except (WrongWords, UnicodeEncodeError):
        return list(words)
    if form.command == "sample":
        return list(words)
    options = [
        f"{option}={value}" if form.form.options[option] else option
        for option, value in form.options.items()
    ]
    settings = [f"{name}={days}" for name, days in form.settings.items()]
    return [form.command, *(files.get(name, NOWHERE) for name in form.files), *options, *settings]


def library_path() -> Path | None:
    """The library that the environment names, that of the package, or that of the clone in which
    the package lies.
    """
    if named := os.environ.get(LIBRARY_VARIABLE):
        return Path(named)
    if os.environ.get(program.VARIABLE):
        return None
    places = [HERE / native.FILE]
    if program.is_clone(HERE.parents[1]):
        places.append(HERE.parents[1] / "built" / native.FILE)
    return next((it for it in places if it.is_file()), None)


class Found:
    """The library, or where there is none the program, as it is found at the first call."""

    def __init__(self) -> None:
        self.lock = threading.Lock()
        self.engine: Engine | None = None

    def answer(self, words: Words, files: Files) -> Answer:
        with self.lock:
            self.engine = self.engine or find()
        return self.engine.answer(words, files)

    def __reduce__(self) -> tuple[type[Found], tuple[()]]:
        return Found, ()


def find() -> Engine:
    path = library_path()
    if path:
        return Library(path)
    try:
        return ByProgram(program.find(None, HERE.parent))
    except Stop as stop:
        raise NoAnswer(
            f"there is no library {native.FILE} either, by {LIBRARY_VARIABLE} or in the package; "
            f"{stop.message}"
        ) from stop
