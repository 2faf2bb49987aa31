"""The texts that the program is made from, and which program in the folder `built` is theirs.

The toolchain writes crates/tilugba/out/tilugba in place, and its gate sets crates/*/out aside. So what runs is a copy in a folder of its
own, `built`, which has

  tilugba        the proved program, replaced at the end of a build by one rename
  sums           the checksum of the texts that it was built from, and its own
  unproved/SUM   the program compiled from the texts of this checksum with nothing proved, replaced in the same way
  unproved/sums  both checksums of that one
  looked_at      which of these ./tilugba runs, and what it says of it; its time is that of the last look at the texts
  looked_at.N    the names of the texts, of their folders and of the program; ./tilugba looks at these lists side by side
  failed         the checksum of the texts of the last build, if it failed
  log, logs      what the toolchain said during the last build; logs has it by crate
  proving        copies in which crates are proved, while a build runs
  lock           held by the one who builds; unproved/lock by the one who compiles
"""
from __future__ import annotations

import contextlib
import fcntl
import hashlib
import os
import sys
import time
from collections.abc import Iterator
from dataclasses import dataclass
from pathlib import Path

CRATE = "tilugba"
PARTS = ("src", "specs", "proofs")
BUILT, PROVED, UNPROVED = "built", "built/tilugba", "built/unproved"
LOOKED_AT = "built/looked_at"
# How many lists ./tilugba looks at side by side, where there are as many processors.
MOST_LISTS = 4
# A file system counts time in ticks of some milliseconds, or by the second: what changes within the tick of a look is seen by the next one.
TICK, SECOND = 50_000_000, 1_000_000_000


class Stop(Exception):
    """What is wrong and what to do, in one line."""


def say(text: str) -> None:
    """Tells the one who waits. Nothing depends on it: standard error may be closed."""
    with contextlib.suppress(OSError, ValueError, AttributeError):
        print(f"tilugba: {text}", file=sys.stderr, flush=True)


def name_of(line: str) -> str:
    """The crate of a line of a crates.txt; of no crate, nothing."""
    return next(iter(line.partition("#")[0].partition(":")[0].split()), "")


def crate_lines(file: Path) -> dict[str, list[str]]:
    """The crates of a crates.txt, each with those that it uses."""
    lines = file.read_text(encoding="utf-8").splitlines()
    return {name_of(it): it.partition("#")[0].partition(":")[2].split() for it in lines if name_of(it)}


def crates_in_order(rows: dict[str, list[str]], top: str = CRATE) -> list[str]:
    """The crates that one stands on, as the program's does, each behind those that it uses, its own as the last. Lines of crates.txt come in any order."""
    found: dict[str, None] = {}

    def visit(crate: str, above: tuple[str, ...]) -> None:
        if crate in above:
            raise Stop(f"in crates.txt the crate {crate} uses itself: mend that line")
        if crate in rows and crate not in found:
            for used in rows[crate]:
                visit(used, (*above, crate))
            found[crate] = None

    visit(top, ())
    if not found:
        raise Stop(f"crates.txt does not name the crate {top}: take that file from a clone")
    return list(found)


def sum_of(file: Path) -> str:
    with open(file, "rb") as it:
        return hashlib.file_digest(it, "sha256").hexdigest()


@dataclass(frozen=True)
class Program:
    """A program that is there, by its path from the top of the repository."""

    path: str
    is_proved: bool


class Sources:
    """The texts of the program, or of another crate and those below it, in a repository: those that a check of these crates reads."""

    def __init__(self, top: Path, crate: str = CRATE):
        self.top = top
        try:
            self.crates = crates_in_order(crate_lines(top / "crates.txt"), crate)
        except OSError as error:
            raise Stop(f"{error.filename} cannot be read ({error.strerror})") from error
        self.parts = [f"crates/{it}/{part}" for it in self.crates for part in PARTS if (top / f"crates/{it}/{part}").is_dir()]

    def names(self) -> tuple[list[str], list[str]]:
        """The texts, and the folders in which one can come, go or be renamed. Files of editors, edits and data are not among them."""
        texts, folders = ["HANDLES", "crates.txt"], [f"crates/{it}" for it in self.crates]
        left = list(self.parts)
        while left:
            folder = left.pop()
            folders.append(folder)
            for it in os.scandir(self.top / folder):
                name = f"{folder}/{it.name}"
                if it.is_dir(follow_symlinks=False):
                    left.append(name)
                elif it.is_file(follow_symlinks=False) and it.name.endswith((".rt", ".antt")):
                    texts.append(name)
        return sorted(texts, key=os.fsencode), folders

    def sum(self) -> str:
        """The checksum of all texts, as `sha256sum TEXTS | sha256sum` gives it."""
        try:
            lines = [f"{sum_of(self.top / it)}  {it}\n" for it in self.names()[0]]
        except OSError as error:
            raise Stop(f"{error.filename} cannot be read ({error.strerror}): mend that, and call this again") from error
        return hashlib.sha256(os.fsencode("".join(lines))).hexdigest()

    def sums(self, of_texts: str, program: str) -> str:
        return f"{of_texts}  -\n{sum_of(self.top / program)}  -\n"

    def fits(self, of_texts: str, program: str, sums: str) -> bool:
        """Whether a program is that of the texts with this checksum, by what was noted when it was made."""
        with contextlib.suppress(OSError):
            noted = (self.top / sums).read_text(encoding="ascii", errors="replace")
            return os.access(self.top / program, os.X_OK) and noted == self.sums(of_texts, program)
        return False

    def program_of(self, of_texts: str) -> Program | None:
        """The program of the texts with this checksum: the proved one, or else the one that was compiled."""
        if self.fits(of_texts, PROVED, "built/sums"):
            return Program(PROVED, True)
        compiled = f"{UNPROVED}/{of_texts}"
        return Program(compiled, False) if self.fits(of_texts, compiled, f"{UNPROVED}/sums") else None

    def look(self) -> Program | None:
        """The program of the texts as they are, which ./tilugba then runs at once until one of the texts is touched."""
        with contextlib.ExitStack() as turn:
            if (self.top / BUILT).is_dir():
                turn.enter_context(held(self.top / BUILT))
            now = self.clock()
            texts, folders = self.names()
            program = self.program_of(self.sum())
            if program and now:
                self.keep_look(now, program, [program.path, *texts, *folders])
            return program

    def clock(self) -> int | None:
        """The time of the file system, set back by a tick; None in a copy that cannot be written to."""
        with contextlib.suppress(OSError):
            new = self.top / f"{LOOKED_AT}.new"
            new.unlink(missing_ok=True)
            new.touch()
            now = new.stat().st_mtime_ns
            return now - (TICK if now % SECOND else 2 * SECOND)
        return None

    def keep_look(self, now: int, program: Program, names: list[str]) -> None:
        """Notes what was looked at and when, unless the folder is full."""
        count = min(MOST_LISTS, len(os.sched_getaffinity(0)))
        with contextlib.suppress(OSError):
            (self.top / LOOKED_AT).unlink(missing_ok=True)
            for it in (self.top / BUILT).glob("looked_at.[0-9]"):
                it.unlink()
            for number in range(count):
                part = "".join(f"{it}\0" for it in names[number::count])
                (self.top / f"{LOOKED_AT}.{number + 1}").write_bytes(os.fsencode(part))
            said = "" if program.is_proved else unproved_line(self.top)
            new = self.top / f"{LOOKED_AT}.new"
            new.write_text(f"{program.path}\n{said}\n", encoding="utf-8")
            os.utime(new, ns=(now, now))
            new.rename(self.top / LOOKED_AT)


def unproved_line(top: Path) -> str:
    """What is said at each call of a program that was compiled."""
    from .plan import Plan, minutes, processors

    left = minutes(Plan(top, processors()).whole())
    return f"this machine has not proved the program, which is compiled from the same sources: tools/build-program proves it, in {left}"


@contextlib.contextmanager
def held(path: Path, waits: str = "") -> Iterator[bool]:
    """Holds the lock on a file or a folder, and tells whether it had to wait for it; says `waits` if that takes a second."""
    turn = os.open(path, os.O_RDONLY if path.is_dir() else os.O_RDWR | os.O_CREAT, 0o666)
    try:
        had_to_wait = not taken(turn, 1 if waits else 0)
        if had_to_wait:
            if waits:
                say(waits)
            fcntl.flock(turn, fcntl.LOCK_EX)
        yield had_to_wait
    finally:
        os.close(turn)


def taken(turn: int, seconds: float) -> bool:
    """Whether the lock could be had within so many seconds. A file system without locks has none to wait for."""
    until = time.monotonic() + seconds
    while True:
        try:
            fcntl.flock(turn, fcntl.LOCK_EX | fcntl.LOCK_NB)
            return True
        except BlockingIOError:
            if time.monotonic() >= until:
                return False
            time.sleep(0.05)
        except OSError:
            return True
