"""The runs of a night: several at once, a second try of what the machine may have made fail, and
the end by a signal.
"""

from __future__ import annotations

import hashlib
import json
import os
import subprocess
import threading
import time
from collections.abc import Callable, Sequence
from concurrent.futures import Future, ThreadPoolExecutor
from dataclasses import dataclass, replace

from ..program import Program, Status, Stop, reason_of
from ..receipts import Sum
from ..signals import Signalled
from .books import Book, refused
from .folder import Folder, remove
from .sums import Sums

# What a book's files and words alone decide. Any other status is one of the machine, and tried once
# more.
FINAL = (
    frozenset(Status)
    - {Status.UNREAD, Status.NOT_WRITTEN, Status.MEMORY, Status.WORDS, Status.DESK}
)
# A signal for all processes of a group ends a run before the main thread hears of it.
UNTIL_HEARD = 0.2
# What `Sums` and `key_of` make of a book. Another number makes all results anew.
FORM_OF_KEYS = 1


@dataclass(frozen=True)
class Made:
    """What a result depends on, besides the words: the files of a book by the places of their
    names, and the program.
    """

    files: dict[int, Sum]
    program: Sum

    def key(self, book: Book) -> str:
        words = [
            (1, self.files[place].sha256) if place in self.files else (0, word)
            for place, word in enumerate(book.words)
        ]
        return hashlib.sha256(
            json.dumps([FORM_OF_KEYS, self.program.sha256, words]).encode()
        ).hexdigest()


@dataclass(frozen=True)
class Outcome:
    """What became of a book: a status, a line that says most of it, whether it was done before, and
    what it was made of.
    """

    status: int
    line: str = ""
    was_done: bool = False
    made: Made | None = None
    printed: Sum | None = None
    time: float = 0


DONE = Outcome(Status.DONE)


def tried(program: Program) -> Program:
    """The program, tried once. A script like ./tilugba proves and builds it first if need be; what
    it built is then run itself.
    """
    try:
        answer = program.run("sample", "1")
    except Stop as stop:
        raise refused(stop.message) from stop
    if answer.status or not answer.output.startswith(b"contracts 1\n"):
        raise refused(f"{program.path} does not answer `sample 1`, and ends with {answer.status}")
    path = program.path.resolve()
    built = path.parent / "built" / "tilugba"
    with open(path, "rb") as file:
        is_script = file.read(2) == b"#!"
    return Program(built if is_script and os.access(built, os.X_OK) else path, program.seconds)


class Night:
    """Runs of a program on books, with a folder for the results."""

    def __init__(
        self, program: Program, folder: Folder, done: Callable[[], None] = lambda: None
    ) -> None:
        """`done` hears of each book that has an outcome at the first try."""
        self.program, self.folder, self.done = program, folder, done
        self.sums = Sums()
        self.turn = threading.Lock()
        self.running = set[subprocess.Popen[bytes]]()
        self.is_stopped = False

    def outcomes(self, books: Sequence[Book], jobs: int) -> list[Outcome]:
        """What becomes of the books, of which those that the machine made fail are tried once more,
        alone.
        """
        found = self.settle_all(books, jobs, self.done)
        again = [place for place, it in enumerate(found) if it.status not in FINAL]
        for place, outcome in zip(
            again, self.settle_all([books[place] for place in again], 1, lambda: None)
        ):
            found[place] = outcome
        return found

    def settle_all(self, books: Sequence[Book], jobs: int, done: Callable[[], None]) -> list[
        Outcome
    ]:
        """What becomes of these books. It waits in the main thread, where signals come."""
        with ThreadPoolExecutor(jobs) as pool:
            waiting: list[Future[Outcome]] = []
            try:
                for book in books:
                    waiting.append(pool.submit(self.settle, book))
                    waiting[-1].add_done_callback(lambda _: done())
                return [it.result() for it in waiting]
            except Signalled:
                for it in waiting:
                    it.cancel()
                self.stop()
                raise

    def stop(self) -> None:
        """Ends all runs; none begins any more."""
        with self.turn:
            self.is_stopped = True
            for process in self.running:
                process.terminate()

    def settle(self, book: Book) -> Outcome:
        """Does what a book asks for."""
        try:
            made = self.made_of(book)
            if made and self.folder.has(book, made.key(book)):
                self.folder.drop_fault(book)
                return Outcome(
                    Status.DONE,
                    was_done=True,
                    made=made,
                    time=os.stat(self.folder.at(book.name)).st_mtime,
                )
            self.folder.clear(book)
            if book.has_special_file():
                return self.unread(book, "a file is no plain file")
            part = self.folder.new_part()
            try:
                return self.run_into(part, book, made)
            finally:
                remove(part)
        except MemoryError:
            return Outcome(Status.MEMORY)
        except OSError as error:
            return Outcome(Status.NOT_WRITTEN, reason_of(error))

    def made_of(self, book: Book) -> Made | None:
        """What the result of a book depends on, or nothing if a file cannot be read."""
        program = self.sums.summed(str(self.program.path))
        files = {place: self.sums.summed(file) for place, file in book.files.items()}
        found = {place: it for place, it in files.items() if it}
        return Made(found, program) if program and len(found) == len(files) else None

    def unread(self, book: Book, line: str) -> Outcome:
        self.folder.keep_fault(book, Status.UNREAD)
        return Outcome(Status.UNREAD, line)

    def run_into(self, part: str, book: Book, made: Made | None) -> Outcome:
        """Runs the program with its output in a new file, and keeps that or the fault."""
        status = self.run(book, part)
        if self.is_stopped:
            return DONE
        if status:
            return replace(self.fault(book, status, part), made=made, time=time.time())
        if self.made_of(book) != made:
            return self.unread(book, "a file changed while it was read")
        self.folder.keep(book, made and made.key(book), part)
        return Outcome(Status.DONE, made=made, time=time.time())

    def run(self, book: Book, part: str) -> int:
        """The status of a run."""
        with open(part, "xb") as file:
            with self.turn:
                if self.is_stopped:
                    raise OSError(0, "the run was stopped")
                process = self.program.start(book.words, file)
                self.running.add(process)
            status = self.program.wait(process)
            with self.turn:
                self.running.discard(process)
        if process.returncode < 0:
            time.sleep(UNTIL_HEARD)
        return status

    def fault(self, book: Book, status: int, part: str) -> Outcome:
        """Keeps a fault, with what was printed if that is whole; the line that says most of it."""
        printed = b""
        if status in FINAL or status == Status.UNREAD:
            with open(part, "rb") as file:
                printed = file.read()
        self.folder.keep_fault(book, status, printed)
        lines = printed.decode("utf-8", "replace").splitlines()
        told = next(
            (line for line in lines if line.split(" ")[1:2] == ["refused"]),
            lines[0] if lines else "",
        )
        return Outcome(status, told, printed=Sum.of(None, printed) if printed else None)
