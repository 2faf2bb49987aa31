"""The memory that is free, and that of processes with all that they started, in MB."""
from __future__ import annotations

import contextlib
import os
from collections.abc import Iterable


def available() -> int:
    """What nothing holds, also under the limit of a control group."""
    with open("/proc/meminfo", encoding="ascii") as it:
        found = [next(int(line.split()[1]) for line in it if line.startswith("MemAvailable")) // 1024]
    with contextlib.suppress(OSError, ValueError, KeyError):
        with open("/sys/fs/cgroup/memory.max", encoding="ascii") as most, open("/sys/fs/cgroup/memory.stat", encoding="ascii") as stat:
            of_group = dict(line.split() for line in stat)
            found.append((int(most.read()) - int(of_group["anon"])) // 1_000_000)
    return min(found)


def parents() -> dict[int, int]:
    found = {}
    for it in filter(str.isdigit, os.listdir("/proc")):
        with contextlib.suppress(OSError):
            with open(f"/proc/{it}/stat", encoding="utf-8", errors="replace") as stat:
                found[int(it)] = int(stat.read().rpartition(")")[2].split()[1])
    return found


def own_memory(process: int) -> int:
    """Pages that several processes share are divided among them."""
    with contextlib.suppress(OSError):
        with open(f"/proc/{process}/smaps_rollup", encoding="ascii") as it:
            return next((int(line.split()[1]) for line in it if line.startswith("Pss:")), 0) // 1024
    return 0


def memory_of(tops: Iterable[int]) -> dict[int, int]:
    """The memory of each process, with that of all below it."""
    above, found = parents(), {}
    for top in tops:
        level, found[top] = [top], 0
        while level:
            found[top] += sum(map(own_memory, level))
            level = [it for it, parent in above.items() if parent in level]
    return found
