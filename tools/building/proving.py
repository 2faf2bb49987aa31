"""Proves the crates of the program side by side, and puts the program that is built from them into the folder `built`."""
from __future__ import annotations

import contextlib
import os
import shutil
import time
from pathlib import Path

from . import kept, lanes, toolchain
from .lanes import Lane
from .memory import available, memory_of
from .plan import Plan, minutes
from .sources import BUILT, CRATE, PROVED, Sources, Stop, held, say

# Memory in MB: of a crate at one job, of each further job, and what is left free.
FIRST_JOB, NEXT_JOB, LEFT_FREE = 2000, 1700, 1000
LOG, FAILED = Path("built/log"), Path("built/failed")
# The lines of a log that are shown of a crate that failed.
LAST_LINES = 20


class Run:
    """The proofs of one build."""

    def __init__(self, plan: Plan):
        self.plan, self.left, self.running = plan, list(plan.order), dict[str, Lane]()
        self.done: set[str] = set()
        # The seconds of what was proved here, by the plan and in truth.
        self.planned = self.took = 0.0
        self.looked = 0.0

    def pace(self) -> float:
        """How many seconds here a second of the plan takes."""
        return self.took / self.planned if self.planned else 1.0

    def seconds_left(self) -> float:
        now, running = time.monotonic(), {}
        for crate, lane in self.running.items():
            whole = self.plan.time_of(crate, lane.jobs)
            running[crate] = lane.jobs, max(whole - (now - lane.begun) / self.pace(), 1.0)
        return self.plan.ends(self.left, running, self.done) * self.pace()

    def jobs_that_fit(self) -> int:
        """For how many jobs of a further crate there is memory, beside what those that run may still take."""
        promised = sum(max(FIRST_JOB + NEXT_JOB * (it.jobs - 1) - it.memory, 0) for it in self.running.values())
        return max((available() - LEFT_FREE - promised - FIRST_JOB) // NEXT_JOB + 1, 0)

    def start_some(self) -> None:
        """Starts what can start. One crate runs also where memory is short: it may do."""
        for crate, jobs in self.plan.starts(self.left, {it: lane.jobs for it, lane in self.running.items()}, self.done):
            fit = self.jobs_that_fit()
            if self.running and not fit:
                return
            lane = Lane(crate, self.plan.below[crate], max(min(jobs, fit), 1))
            self.left.remove(crate)
            self.running[crate] = lane
            lane.start()
            number = len(self.done) + len(self.running)
            with_jobs = f" with {lane.jobs} jobs" if lane.jobs > 1 else ""
            say(f"proving {crate}{with_jobs}, {number} of {len(self.plan.order)}; {minutes(self.seconds_left())} left")

    def look_at_memory(self) -> None:
        if time.monotonic() - self.looked < 5:
            return
        found = memory_of(it.process.pid for it in self.running.values())
        for it in self.running.values():
            it.memory = found[it.process.pid]
            it.most_memory = max(it.most_memory, it.memory)
        self.looked = time.monotonic()

    def take_ended(self) -> str | None:
        """Takes what lanes made that have ended; returns the name of one that failed."""
        for lane in [it for it in self.running.values() if it.has_ended()]:
            del self.running[lane.crate]
            lanes.give_back(lane.crate)
            lane.add_to_log()
            if lane.status:
                return lane.crate
            self.done.add(lane.crate)
            self.count(lane)
        return None

    def count(self, lane: Lane) -> None:
        """A crate that was proved before takes some seconds, which say nothing of how long a proof takes here."""
        planned = self.plan.time_of(lane.crate, lane.jobs)
        if lane.took * 4 >= planned:
            self.planned += planned
            self.took += lane.took

    def all(self) -> str | None:
        """Proves all, and returns the name of the crate that failed, if one did."""
        failed = None
        while not failed and (self.left or self.running):
            self.start_some()
            self.look_at_memory()
            failed = self.take_ended()
            if self.running:
                time.sleep(0.2)
        return failed

    def stop(self) -> None:
        for it in self.running.values():
            it.stop()
        for it in self.running:
            lanes.give_back(it)


def prove(plan: Plan, texts: list[str]) -> str | None:
    """Proves the crates of these texts, and returns the name of one that failed. Until it ends each other rt in this tree waits."""
    with contextlib.ExitStack() as ending:
        for crate in sorted(plan.order):
            ending.callback(os.close, lanes.lock(Path("crates") / crate))
        lanes.give_all_back()
        lanes.make_folders()
        ending.callback(shutil.rmtree, lanes.PROVING, ignore_errors=True)
        lanes.copy_texts(texts)
        run = Run(plan)
        ending.callback(run.stop)
        return run.all()


def replace_program(made: Path, sources: Sources, of_texts: str) -> None:
    """Puts the program that was made in the place of the old one, which goes on working until then."""
    with held(Path(BUILT)):
        new = Path(f"{PROVED}.new")
        shutil.copyfile(made, new)
        new.chmod(0o755)
        new.rename(PROVED)
        Path("built/sums").write_text(sources.sums(of_texts, PROVED), encoding="ascii")


def stop_on(crate: str, of_texts: str) -> None:
    FAILED.write_text(of_texts, encoding="ascii")
    lines = (lanes.LOGS / crate).read_text(encoding="utf-8", errors="replace").splitlines()
    say(f"the log of {crate} ends with\n" + "\n".join(lines[-LAST_LINES:]))
    raise Stop(f"{crate} failed; its whole log is {BUILT}/logs/{crate}")


def prove_until_settled(top: Path, at_once: int, most: int) -> None:
    """Proves and builds the program of the texts, and once more if they changed meanwhile."""
    say("the program is proved and built; a crate that was proved before takes seconds")
    while True:
        sources = Sources(top)
        before = sources.sum()
        LOG.write_bytes(b"")
        FAILED.unlink(missing_ok=True)
        failed = prove(Plan(top, at_once, most), sources.names()[0])
        if failed:
            stop_on(failed, before)
        if Sources(top).sum() == before:
            replace_program(Path(kept.PROGRAM), sources, before)
            return
        say("the sources have changed meanwhile, so once more")


def build(top: Path, at_once: int, most: int) -> None:
    """Sees to it that built/tilugba is the program of the texts. The program that was there stays if that fails."""
    if not why_not_taken(top):
        return
    with contextlib.chdir(top), held(top / BUILT / "lock", "another build goes on; this one waits for it") as had_to_wait:
        if is_there(top):
            return
        if had_to_wait and FAILED.is_file() and FAILED.read_text(encoding="ascii") == Sources(top).sum():
            raise Stop("the build that was waited for failed; its log is built/log")
        prove_until_settled(top, at_once, most)
        Sources(top).look()


def is_there(top: Path) -> bool:
    found = Sources(top).look()
    return found is not None and found.is_proved


def why_not_taken(top: Path) -> str | None:
    """Sees to it that built/tilugba is the program of the texts, if it is so or a gate on this machine has kept it; returns else why not."""
    if is_there(top):
        return None
    tools = toolchain.at_hand(top)
    (top / BUILT).mkdir(exist_ok=True)
    with contextlib.chdir(top):
        while True:
            sources = Sources(top)
            before = sources.sum()
            try:
                with kept.copy_over_kept(tools, top, CRATE) as copy:
                    if Sources(copy).sum() == before:
                        replace_program(copy / kept.PROGRAM, sources, before)
            except kept.NotKept as why:
                return str(why)
            # (texts that changed meanwhile are taken once more)
            if Sources(top).sum() == before:
                Sources(top).look()
                return None
