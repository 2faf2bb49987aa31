"""Where calls are asked. Threads do on one machine: while the library or the program runs,
Python does something else.
"""

from __future__ import annotations

from collections import deque
from collections.abc import Callable, Iterable, Iterator, Sequence
from concurrent.futures import ThreadPoolExecutor
from itertools import tee
from typing import Protocol

from ..engines import Engine
from ..program import Answer
from .asks import Ask, answer_all, pieces
from .kept import Kept

# How many pieces of work wait for each worker, so that none is idle and few are in memory.
WAITING = 3


class Spread(Protocol):
    """What answers pieces of work, in order. It takes further pieces only when it is ready for
    them.
    """

    def answers(self, work: Iterable[Sequence[Ask]]) -> Iterator[list[Answer]]:
        """The answers of each piece."""


class Threads:
    """The processors of this machine."""

    def __init__(self, engine: Engine, jobs: int) -> None:
        self.engine, self.jobs = engine, jobs

    def answers(self, work: Iterable[Sequence[Ask]]) -> Iterator[list[Answer]]:
        with ThreadPoolExecutor(self.jobs) as pool:
            submit = lambda piece: pool.submit(answer_all, self.engine, piece).result
            try:
                yield from in_order(work, submit, self.jobs * WAITING)
            except BaseException:
                pool.shutdown(wait=False, cancel_futures=True)
                raise


def in_order(
    work: Iterable[Sequence[Ask]],
    submit: Callable[[Sequence[Ask]], Callable[[], list[Answer]]],
    most: int,
) -> Iterator[list[Answer]]:
    """The answers of pieces that are submitted, of which at most so many wait at a time."""
    waiting: deque[Callable[[], list[Answer]]] = deque()
    for piece in work:
        waiting.append(submit(piece))
        if len(waiting) >= most:
            yield waiting.popleft()()
    while waiting:
        yield waiting.popleft()()


def answered(
    asks: Iterable[Ask],
    spread: Spread,
    kept: Kept | None = None,
    done: Callable[[int], None] = lambda _: None,
) -> Iterator[Answer]:
    """The answer of each call, in order. What is kept is not asked; `done` hears how many were
    answered.
    """
    looked_up, again = tee(
        (piece, [kept.answer(it) if kept else None for it in piece]) for piece in pieces(asks)
    )
    missing = ([ask for ask, answer in zip(*it) if answer is None] for it in looked_up)
    answers = spread.answers(missing)
    for piece, known in again:
        found = next(answers)
        if kept and found:
            kept.add([ask for ask, answer in zip(piece, known) if answer is None], found)
        rest = iter(found)
        yield from (it or next(rest) for it in known)
        done(len(piece))
