"""In which order the crates of the program are proved, with how many jobs each, and how long that takes.

A crate starts once the crates below it are proved; of those that can start, the one that the longest chain of others waits for is first.
Each gets one job: a second shortens a proof by a tenth to a quarter only, so a processor is better used by another crate. Where more
processors are free than crates wait, the head of the longest chain gets some of them.
"""
from __future__ import annotations

import os
from pathlib import Path

from .sources import Stop, crate_lines, crates_in_order

# Of a crate's proof: what one process does alone, and how much more the whole takes at more than one job. Measured.
ALONE, MORE = 0.6, 0.02
# The jobs that the head of the longest chain gets at most. Measured: a third still gains, a fourth only costs.
HEAD_JOBS = 3
# The seconds of a crate that tools/proof-times does not name.
UNKNOWN = 60.0


def processors() -> int:
    """How many jobs run at once: PROCESSORS, or as many processors as this process may run on."""
    given = os.environ.get("PROCESSORS")
    if given is None:
        return len(os.sched_getaffinity(0))
    if not given.isdecimal() or int(given) < 1:
        raise Stop(f"PROCESSORS is `{given}`: give a number from 1 on, or unset it")
    return int(given)


def minutes(seconds: float) -> str:
    number = int(seconds / 60 + 0.5)
    return "less than a minute" if not number else "about a minute" if number == 1 else f"about {number} minutes"


class Plan:
    """The crates of the program, lowest first, and how long they take by tools/proof-times."""

    def __init__(self, top: Path, at_once: int, most: int = HEAD_JOBS):
        rows = crate_lines(top / "crates.txt")
        self.order, self.at_once, self.most = crates_in_order(rows), at_once, most
        self.seconds = read_times(top / "tools/proof-times")
        self.below: dict[str, set[str]] = {}
        for crate in self.order:
            used = [it for it in rows[crate] if it in self.below]
            self.below[crate] = {*used, *(lower for it in used for lower in self.below[it])}
        # How long the chain is that begins with the crate and ends with the program.
        self.chain = {it: 0.0 for it in self.order}
        for crate in reversed(self.order):
            self.chain[crate] += self.time_of(crate)
            for it in self.below[crate]:
                self.chain[it] = max(self.chain[it], self.chain[crate])

    def time_of(self, crate: str, jobs: int = 1) -> float:
        more = 1 if jobs == 1 else 1 + MORE
        return self.seconds.get(crate, UNKNOWN) * (ALONE + (1 - ALONE) / jobs) * more

    def starts(self, left: list[str], running: dict[str, int], done: set[str]) -> list[tuple[str, int]]:
        """Which crates start now, and with how many jobs; of those that run it knows the jobs."""
        free = self.at_once - sum(running.values())
        ready = sorted((it for it in left if self.below[it] <= done), key=lambda it: -self.chain[it])[: max(free, 0)]
        longest = max((self.chain[it] for it in [*left, *running]), default=0.0)
        spare = free - len(ready)
        return [(it, min(1 + spare, self.most) if it == ready[0] and self.chain[it] >= longest else 1) for it in ready]

    def ends(self, left: list[str], running: dict[str, tuple[int, float]], done: set[str]) -> float:
        """In how many seconds all is proved. Of those that run it is given the jobs, and how long they still take."""
        left, running, done, now = list(left), dict(running), set(done), 0.0
        while left or running:
            for crate, jobs in self.starts(left, {it: jobs for it, (jobs, _) in running.items()}, done):
                left.remove(crate)
                running[crate] = jobs, now + self.time_of(crate, jobs)
            first = min(running, key=lambda it: running[it][1])
            now = max(now, running.pop(first)[1])
            done.add(first)
        return now

    def whole(self) -> float:
        """The seconds from nothing."""
        return self.ends(self.order, {}, set())


def read_times(file: Path) -> dict[str, float]:
    found = {}
    for line in file.read_text(encoding="utf-8").splitlines():
        words = line.partition("#")[0].split()
        if not words:
            continue
        if len(words) != 2 or not words[1].isdecimal():
            raise Stop(f"{file} has the line `{line}`: write a crate and its seconds")
        found[words[0]] = float(words[1])
    return found
