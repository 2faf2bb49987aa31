"""The library in this process, by ctypes: words and files go in as bytes, a status and a text come
back (include/tilugba.h).

The one place that knows the surface of C. What it owes the library it keeps: lengths are those of
the bytes, the room is a thread's own, and nothing that is lent goes away while a call runs. Nothing
here is proved.
"""

from __future__ import annotations

import ctypes
import os
import platform
import threading
from collections.abc import Iterable, Mapping, Sequence
from pathlib import Path

ABI = 1
FILE = "libtilugba.so"
# Room that a thread keeps between calls: at first, and at most.
FIRST_ROOM, MOST_ROOM = 1 << 16, 1 << 22
# The code is for x86-64-v2: these flags of /proc/cpuinfo are what it has beyond the first
# processors.
CPUINFO = "/proc/cpuinfo"
FLAGS = frozenset({"cx16", "lahf_lm", "popcnt", "pni", "sse4_1", "sse4_2", "ssse3"})


class Bytes(ctypes.Structure):
    """`struct tilugba_bytes`. The bytes are kept alive by the structure."""

    _fields_ = [("at", ctypes.c_char_p), ("size", ctypes.c_size_t)]


class File(ctypes.Structure):
    """`struct tilugba_file`."""

    _fields_ = [("name", Bytes), ("bytes", Bytes)]


def lent(data: bytes) -> Bytes:
    return Bytes(data, len(data))


def refuse_old_processor() -> None:
    """An older processor would end this process by a signal, in the middle of a call."""
    if platform.machine() != "x86_64":
        raise ImportError(
            f"the library of tilugba is for x86-64, and this machine is {platform.machine()}"
        )
    try:
        with open(CPUINFO, encoding="ascii", errors="replace") as file:
            told = next((line for line in file if line.startswith("flags")), None)
    except OSError:
        return
    missing = FLAGS - set(told.split()) if told else frozenset()
    if missing:
        raise ImportError(
            "the library of tilugba needs a processor of x86-64-v2, and this one lacks "
            f"{', '.join(sorted(missing))}"
        )


class Native:
    """A loaded library. Any number of threads may call at once, and other threads of Python go on
    meanwhile.
    """

    def __init__(self, path: str | os.PathLike[str]) -> None:
        refuse_old_processor()
        self.path = Path(path)
        try:
            library = ctypes.CDLL(os.fspath(self.path))
            abi, self._run = library.tilugba_abi, library.tilugba_run
        except (OSError, AttributeError) as error:
            raise ImportError(f"{self.path} is no library of tilugba: {error}") from error
        abi.restype = ctypes.c_uint32
        if abi() != ABI:
            raise ImportError(
                f"{self.path} has surface {abi()}, and this package knows {ABI}: take both from "
                "one release"
            )
        size, room = ctypes.POINTER(ctypes.c_size_t), ctypes.c_char_p
        self._run.restype = ctypes.c_uint32
        self._run.argtypes = [
            ctypes.POINTER(Bytes),
            ctypes.c_size_t,
            ctypes.POINTER(File),
            ctypes.c_size_t,
            room,
            ctypes.c_size_t,
            size,
        ]
        self._kept = threading.local()

    def call(
        self, words: Sequence[bytes], files: Mapping[bytes, bytes] | Iterable[tuple[bytes, bytes]]
    ) -> tuple[int, bytes]:
        """Runs the command of the words over the files. A text that does not fit into the room
        costs a second call.
        """
        pairs = list(files.items() if isinstance(files, Mapping) else files)
        many = (Bytes * len(words))(*map(lent, words))
        those = (File * len(pairs))(*(File(lent(name), lent(data)) for name, data in pairs))
        size = ctypes.c_size_t()
        room = getattr(self._kept, "room", None) or ctypes.create_string_buffer(FIRST_ROOM)
        while True:
            status = self._run(
                many, len(words), those, len(pairs), room, len(room), ctypes.byref(size)
            )
            if size.value <= len(room):
                if len(room) <= MOST_ROOM:
                    self._kept.room = room
                return status, ctypes.string_at(room, size.value)
            room = ctypes.create_string_buffer(size.value)
