"""Calls over the workers of a Dask cluster. A worker has this package, and the same library or
program.

A piece of work whose worker is lost is given to another one by Dask, and gives the same answers.
"""

from __future__ import annotations

from collections.abc import Callable, Iterable, Iterator, Sequence
from contextlib import closing
from functools import cache

from ..engines import Engine, find
from ..program import Answer, Status, Stop
from .asks import Ask, answer_all, sum_of_engine
from .spread import WAITING, in_order

# How long is waited for the cluster, and how often it is asked for its workers, in seconds.
UNTIL_THERE, LOOK = 60, 10


@cache
def engine_here() -> tuple[Engine, str]:
    """What answers on this worker, with its sum."""
    engine = find()
    return engine, sum_of_engine(engine)


def answer_here(piece: Sequence[Ask]) -> tuple[str, list[tuple[int, bytes]]]:
    """The answers of a piece on a worker, with the sum of what gave them."""
    engine, total = engine_here()
    return total, [(int(it.status), it.output) for it in answer_all(engine, piece)]


class Dask:
    """The workers of a cluster at an address."""

    def __init__(self, address: str, engine_sum: str) -> None:
        self.address, self.engine_sum = address, engine_sum

    def answers(self, work: Iterable[Sequence[Ask]]) -> Iterator[list[Answer]]:
        try:
            from distributed import Client
        except ImportError as error:
            raise Stop(Status.DESK, "--dask needs distributed, which is not installed") from error
        try:
            client = Client(self.address, timeout=UNTIL_THERE)
        except (OSError, ValueError) as error:
            raise Stop(
                Status.DESK, f"there is no cluster at {self.address}: {told(error)}"
            ) from error
        with closing(client):
            most = WAITING * max(sum(client.nthreads().values()), 1)
            yield from in_order(work, lambda piece: self.submit(client, piece), most)

    def submit(self, client: object, piece: Sequence[Ask]) -> Callable[[], list[Answer]]:
        """Sends a piece away; what is returned waits for its answers."""
        if not piece:
            return list
        future = client.submit(answer_here, list(piece), pure=False)
        return lambda: self.result(client, future)

    def result(self, client: object, future: object) -> list[Answer]:
        """The answers of a piece, for which it waits as long as there are workers."""
        from distributed import TimeoutError as Late

        while True:
            try:
                total, answers = future.result(timeout=LOOK)
                break
            except Late as error:
                if not client.nthreads():
                    raise Stop(Status.DESK, f"{self.address} has no worker left") from error
            except Exception as error:  # whatever a worker raises ends the command with its line
                raise Stop(Status.DESK, f"{self.address}: {told(error)}") from error
        if total != self.engine_sum:
            raise Stop(Status.DESK, f"a worker of {self.address} has another library or program")
        return [Answer(*it) for it in answers]


def told(error: Exception) -> str:
    """An exception on one line."""
    lines = str(error).splitlines()
    return f"{type(error).__name__}: {lines[0]}" if lines else type(error).__name__
