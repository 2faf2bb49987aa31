"""The words by which a subcommand says where its calls are asked, and what is kept of the
answers.
"""

from __future__ import annotations

import argparse
import os
from collections.abc import Iterable, Iterator
from dataclasses import dataclass
from pathlib import Path

from ..counts import jobs
from ..desk import Desk
from ..program import Answer, Status, Stop
from ..progress import Progress
from .asks import Ask, sum_of_engine
from .kept import Kept
from .spread import Spread, Threads, answered


def processors() -> int:
    return len(os.sched_getaffinity(0))


def add_options(parser: argparse.ArgumentParser) -> None:
    where = parser.add_argument_group("where it is asked")
    where.add_argument(
        "--jobs",
        metavar="N",
        type=jobs,
        help="ask N calls at once; as many as there are processors otherwise",
    )
    where.add_argument(
        "--keep",
        metavar="FOLDER",
        type=Path,
        help="keep answers there, and do not ask again what is kept",
    )
    where.add_argument(
        "--dask", metavar="ADDRESS", help="ask over the workers of the Dask cluster at this address"
    )
    where.add_argument(
        "--slurm",
        metavar="FOLDER",
        type=Path,
        help="ask nothing, and write a Slurm array into this folder, which is one of --keep then",
    )


@dataclass(frozen=True)
class Asking:
    """Where calls are asked, and the folder in which answers are kept."""

    desk: Desk
    jobs: int
    keep: Path | None
    dask: str | None
    slurm: Path | None

    @classmethod
    def of(cls, arguments: argparse.Namespace, desk: Desk) -> Asking:
        if arguments.slurm and (arguments.dask or arguments.keep):
            raise Stop(Status.USAGE, "--slurm goes with neither --dask nor --keep")
        jobs_at_once = arguments.jobs or processors()
        return cls(desk, jobs_at_once, arguments.keep, arguments.dask, arguments.slurm)

    def spread(self) -> Spread:
        if self.dask is None:
            return Threads(self.desk.engine, self.jobs)
        from .by_dask import Dask

        return Dask(self.dask, sum_of_engine(self.desk.engine))

    def answers(self, asks: Iterable[Ask], count: int) -> Iterator[Answer]:
        """The answers in order, with what is done shown on a terminal."""
        progress = Progress(self.desk.name, count, "values")
        kept = Kept(self.keep, sum_of_engine(self.desk.engine)) if self.keep else None
        try:
            yield from answered(asks, self.spread(), kept, progress.done)
        finally:
            progress.close()
            if kept:
                kept.close()

    def written(self, asks: Iterable[Ask]) -> int:
        """Writes a Slurm array of the calls, and says what to do with it; the status of the
        command.
        """
        from .by_slurm import SUBMIT, words_of_task, write

        folder = self.slurm or Path()
        words = words_of_task(self.desk.beside, self.desk.program_path)
        count = write(asks, folder, self.desk.engine, words)
        tasks = "1 task" if count == 1 else f"{count} tasks"
        todo = f"run {folder / SUBMIT}, and then" if count else "all is answered:"
        self.desk.write(f"{tasks}; {todo} the same words with --keep instead of --slurm\n")
        return Status.DONE
