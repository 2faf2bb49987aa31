"""Checksums of files, by which a night run knows what has changed. Times do not count."""

from __future__ import annotations

import hashlib
import os
import stat
import time

from ..receipts import Sum

# Times go by ticks: a file that was just written to may be written to again within the same one.
SETTLED = 2_000_000_000
State = tuple[int, int, int, int, int]


class Sums:
    """Checksums. One is taken again if the file is another, or was or may have been written to."""

    def __init__(self) -> None:
        self.known: dict[str, tuple[State, str]] = {}

    def of(self, path: str) -> str | None:
        """The checksum, or nothing if this is no plain file that can be read."""
        found = self.summed(path)
        return found.sha256 if found else None

    def summed(self, path: str) -> Sum | None:
        """The size and the checksum."""
        try:
            now = os.stat(path)
            if not stat.S_ISREG(now.st_mode):
                return None
            state = now.st_dev, now.st_ino, now.st_size, now.st_mtime_ns, now.st_ctime_ns
            if path in self.known and self.known[path][0] == state:
                return Sum(path, now.st_size, self.known[path][1])
            begin = time.time_ns()
            with open(path, "rb") as file:
                total = hashlib.file_digest(file, "sha256").hexdigest()
            if begin - now.st_ctime_ns > SETTLED:
                self.known[path] = state, total
            return Sum(path, now.st_size, total)
        except (OSError, ValueError):
            return None
