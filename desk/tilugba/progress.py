"""How far a command is, on one line of a terminal that is written over. Where there is no
terminal nothing is said.
"""

from __future__ import annotations

import sys
import threading
import time
from contextlib import suppress
from typing import TextIO

# A line is written so often, in seconds.
PAUSE = 0.2


class Progress:
    """A count of what is done, such as `history: 120 of 4,096 values, 3 s`."""

    def __init__(self, name: str, total: int, unit: str, stream: TextIO | None = None) -> None:
        self.name, self.total, self.unit = name, total, unit
        self.stream = sys.stderr if stream is None else stream
        self.is_shown = self.stream is not None and self.stream.isatty()
        self.count = 0
        self.begun = self.told = time.monotonic()
        self.width = 0
        self.turn = threading.Lock()

    def done(self, many: int = 1) -> None:
        """Counts what was done, and says so if a line is due."""
        with self.turn:
            self.count += many
            now = time.monotonic()
            if self.is_shown and now - self.told >= PAUSE:
                self.told = now
                self.write(self.line(now - self.begun))

    def line(self, seconds: float) -> str:
        return f"{self.name}: {self.count:,} of {self.total:,} {self.unit}, {seconds:.0f} s"

    def write(self, line: str) -> None:
        """Writes over the line before; a terminal that went away hears nothing."""
        with suppress(OSError, ValueError):
            self.stream.write(f"\r{line:<{self.width}}")
            self.stream.flush()
        self.width = len(line)

    def close(self) -> None:
        """Takes the line away, so that what is printed next begins on an empty one."""
        if self.is_shown and self.width:
            self.write("")
            with suppress(OSError, ValueError):
                self.stream.write("\r")
                self.stream.flush()
