"""Signals that stop a command, as an exception: what goes on is ended, and nothing is left half
written.
"""

from __future__ import annotations

import signal
import threading
from collections.abc import Callable, Iterator
from contextlib import contextmanager
from types import FrameType

SIGNALS = (signal.SIGHUP, signal.SIGINT, signal.SIGTERM)


class Signalled(BaseException):
    """The signal that stops a command. It is no `Exception`: nothing takes it for a mistake."""

    def __init__(self, number: int) -> None:
        super().__init__(number)
        self.number = number

    @property
    def status(self) -> int:
        """The status that a shell tells of it."""
        return 128 + self.number


@contextmanager
def signals_raised(ends: Callable[[], None]) -> Iterator[None]:
    """The first signal calls `ends`, which may not wait for a lock, and raises `Signalled`; the
    others are ignored. One that is ignored already, as below `nohup`, stays so.

    Signals come in the main thread. In another one nothing is done.
    """
    if threading.current_thread() is not threading.main_thread():
        yield
        return

    def stop(number: int, _: FrameType | None) -> None:
        for it in SIGNALS:
            signal.signal(it, signal.SIG_IGN)
        ends()
        raise Signalled(number)

    before = {it: signal.getsignal(it) for it in SIGNALS}
    for it, handler in before.items():
        if handler != signal.SIG_IGN:
            signal.signal(it, stop)
    try:
        yield
    finally:
        for it, handler in before.items():
            signal.signal(it, handler)
