"""A lane: a copy of the texts of a crate and of those below it, in which the crate is proved while others are proved beside it.

`rt lib` locks the folder of its crate and those of all crates below, so two of them in one tree wait for each other. In a lane, the
libraries of the crates below are links to the tree's files (out/rlib), and what checks of the crate keep (out) is moved in, and back when
the check has ended, however it ended. So the tree has at each time what was proved, as if `rt lib` had run there.
"""
from __future__ import annotations

import fcntl
import os
import shutil
import subprocess
import time
from pathlib import Path

from .sources import CRATE, held, name_of, say

PROVING, LOGS = Path("built/proving"), Path("built/logs")
TEXTS, LANES = PROVING / "texts", PROVING / "lanes"


def make_folders() -> None:
    for it in (LANES, LOGS):
        it.mkdir(parents=True, exist_ok=True)
    # rt looks for crates in all folders but those with such a file.
    (PROVING / "MODULE.bazel").touch()


def copy_texts(texts: list[str]) -> None:
    """So that what changes during a build is seen by the next one, and never in half of the crates."""
    shutil.rmtree(TEXTS, ignore_errors=True)
    for it in texts:
        (TEXTS / it).parent.mkdir(parents=True, exist_ok=True)
        shutil.copyfile(it, TEXTS / it)


def link_or_copy(one: str, other: str) -> None:
    """rt writes into no text, and removes a library's file before it makes it anew."""
    try:
        os.link(one, other)
    except OSError:
        shutil.copyfile(one, other)


def move(one: Path, other: Path) -> None:
    if one.is_dir():
        shutil.rmtree(other, ignore_errors=True)
        shutil.move(one, other)


def lock(folder: Path) -> int:
    """Waits until no rt works in the folder, and returns what keeps others out until it is closed."""
    turn = os.open(folder, os.O_RDONLY)
    try:
        fcntl.flock(turn, fcntl.LOCK_EX | fcntl.LOCK_NB)
    except BlockingIOError:
        say(f"waiting for an rt that works in {folder}")
        fcntl.flock(turn, fcntl.LOCK_EX)
    except OSError:
        # Some file systems have no locks.
        pass
    return turn


def give_back(crate: str) -> None:
    """Moves what checks of the crate made in its lane back into the tree, once no rt works there."""
    lane, here = LANES / crate, Path("crates") / crate
    if (lane / here).is_dir():
        os.close(lock(lane / here))
    if here.is_dir():
        move(lane / here / "out", here / "out")
    shutil.rmtree(lane, ignore_errors=True)


def give_all_back() -> None:
    """Clears what a build left that was killed."""
    if LANES.is_dir():
        for it in sorted(LANES.iterdir()):
            give_back(it.name)
    shutil.rmtree(PROVING, ignore_errors=True)


class Lane:
    """A crate that is being proved."""

    def __init__(self, crate: str, below: set[str], jobs: int):
        self.crate, self.below, self.jobs = crate, below, jobs
        self.folder, self.log = LANES / crate, LOGS / crate
        self.begun = self.took = self.processor = 0.0
        # The memory in MB that it holds, and that it held at most.
        self.memory = self.most_memory = 0
        self.status = 0
        self.process: subprocess.Popen[bytes] | None = None

    def fill(self) -> None:
        shutil.rmtree(self.folder, ignore_errors=True)
        (self.folder / "crates").mkdir(parents=True)
        shutil.copyfile(TEXTS / "HANDLES", self.folder / "HANDLES")
        # rt wants the folder of each crate that the list names.
        mine = {*self.below, self.crate}
        own = [it for it in (TEXTS / "crates.txt").read_text(encoding="utf-8").splitlines() if name_of(it) in mine]
        (self.folder / "crates.txt").write_text("\n".join([*own, ""]), encoding="utf-8")
        for it in mine:
            shutil.copytree(TEXTS / "crates" / it, self.folder / "crates" / it, copy_function=link_or_copy)
        for it in self.below:
            rlib = Path("crates") / it / "out/rlib"
            shutil.copytree(rlib, self.folder / rlib, copy_function=link_or_copy)
        move(Path("crates") / self.crate / "out", self.folder / "crates" / self.crate / "out")

    def words(self) -> list[str]:
        """The status of `rt run` is the program's own, which is 0 of these words, so that it is not 0 if anything before failed."""
        jobs = ["--jobs", str(self.jobs)]
        return ["rt", "run", *jobs, "--", "sample", "1"] if self.crate == CRATE else ["rt", "lib", *jobs]

    def start(self) -> None:
        self.fill()
        self.begun = time.monotonic()
        with open(self.log, "wb") as log:
            # Ctrl-C is for this process, which ends the lanes: so each has a session of its own.
            how = {"stdin": subprocess.DEVNULL, "stdout": log, "stderr": log, "start_new_session": True}
            self.process = subprocess.Popen(self.words(), cwd=self.folder / "crates" / self.crate, **how)

    def has_ended(self) -> bool:
        pid, status, usage = os.wait4(self.process.pid, os.WNOHANG)
        if pid:
            self.status = self.process.returncode = os.waitstatus_to_exitcode(status)
            self.took, self.processor = time.monotonic() - self.begun, usage.ru_utime + usage.ru_stime
        return bool(pid)

    def stop(self) -> None:
        """What rt has started ends with it."""
        if self.process:
            self.process.terminate()
            self.process.wait()

    def add_to_log(self) -> None:
        with open(self.log, "rb") as own, open("built/log", "ab") as log:
            log.write(f"tilugba: {self.crate}\n".encode())
            shutil.copyfileobj(own, log)
            took = f"{self.took:.0f} seconds, {self.processor:.0f} of a processor, {self.jobs} jobs, {self.most_memory} MB"
            log.write(f"tilugba: {self.crate} took {took}\n".encode())


def clear(top: Path) -> None:
    """Clears what a build left that was killed, if none goes on: `rt ci` refuses texts that no crate has."""
    os.chdir(top)
    if PROVING.is_dir():
        with held(Path("built/lock"), "a build goes on; this waits for it"):
            give_all_back()
