"""Calls of the program, recorded with their answers: those that the project's own tests make, by
the recorder in the program's place, and the deepest texts.

The form of a file of calls is that of recorder.c.
"""
from __future__ import annotations

import os
import struct
import subprocess
import sys
from collections.abc import Callable, Iterator
from concurrent.futures import ThreadPoolExecutor
from dataclasses import dataclass
from pathlib import Path

from .bench import TOOLS, TOP, Bench

sys.path.insert(0, str(TOP / "tests"))
import deep_texts

CASES = ("examples", "tests/cases")
# What is recorded of each, by the words that make the calls; the gate has no time for more seeds.
RECORDED = {
    "documents": ["tools/check-docs", "PROGRAM"],
    "random": ["tests/random", "PROGRAM", "1", "30"],
    "hostile": ["tests/hostile", "PROGRAM"],
}
DEEP_WORDS = ("check", "flows", "migrate", "payoff", "advance")


@dataclass(frozen=True)
class Call:
    """A call and its answer."""

    words: list[bytes]
    files: list[tuple[bytes, bytes]]
    status: int
    text: bytes

    def packed(self) -> bytes:
        pieces = [*self.words, *(it for file in self.files for it in file), self.text]
        head = struct.pack("<3I", len(self.words), len(self.files), self.status)
        return head + b"".join(struct.pack("<I", len(it)) + it for it in pieces)


def lent(folder: bytes, words: list[bytes]) -> list[tuple[bytes, bytes]]:
    """The files of a folder that words name."""
    found = []
    for word in words:
        path = os.path.join(folder, word) if word and b"\0" not in word else b""
        if path and os.path.isfile(path):
            found.append((word, Path(os.fsdecode(path)).read_bytes()))
    return found


def cases() -> Iterator[Call]:
    """Each folder with a command: its answer is the one that the folder has."""
    for file in sorted(it for top in CASES for it in (TOP / top).glob("*/command")):
        folder = file.parent
        words = file.read_bytes().removesuffix(b"\n").split(b"\n")
        status = folder / "status"
        number = int(status.read_text(encoding="ascii")) if status.is_file() else 0
        text = (folder / "output").read_bytes()
        yield Call(words, lent(os.fsencode(folder), words), number, text)


def deep(run: Callable[[list[str], dict[str, str]], Call]) -> Iterator[Call]:
    """Runs on the deepest texts that the program takes, of each form."""
    tables = {"fix.csv": deep_texts.FIXINGS, "curve.csv": deep_texts.CURVE}
    tables["set.csv"] = deep_texts.SCENARIO
    value = ["value", "deep.txt", "fix.csv", "curve.csv", *deep_texts.ASKED]

    def taken(words: list[str]) -> Callable[[str], bool]:
        return lambda text: run(words, {**tables, "deep.txt": text}).status in (0, 1)

    more = {"flows": ["fix.csv"], "payoff": ["--contract", "c"]}
    more["advance"] = ["fix.csv", "--to", "1"]
    for it in deep_texts.deep_contracts(taken(["check", "deep.txt"])):
        for word in DEEP_WORDS:
            yield run([word, "deep.txt", *more.get(word, [])], {**tables, "deep.txt": it.text})
    for it in deep_texts.deep_codes(taken(value)):
        files = {**tables, "deep.txt": it.text}
        yield run(value, files)
        mean = ["--mean", "half_even"]
        yield run(["scenarios", "deep.txt", "set.csv", *value[3:], *mean], files)


def of_program(bench: Bench) -> Callable[[list[str], dict[str, str]], Call]:
    """What runs the program on files, in a folder of its own."""
    folder = bench.room / "deep"
    folder.mkdir(exist_ok=True)

    def run(words: list[str], files: dict[str, str]) -> Call:
        for name, text in files.items():
            (folder / name).write_text(text, encoding="ascii")
        how = {"cwd": folder, "stdin": subprocess.DEVNULL, "capture_output": True, "timeout": 60}
        done = subprocess.run([str(bench.program), *words], check=False, **how)
        named = [(it.encode(), files[it].encode()) for it in words if it in files]
        return Call([it.encode() for it in words], named, done.returncode, done.stdout)

    return run


def path_without_cc(bench: Bench) -> str:
    """A PATH without a compiler: without one tests/hostile leaves out the calls that are made to
    fail, which cannot be recorded."""
    folder = bench.room / "bin"
    folder.mkdir(exist_ok=True)
    for place in os.environ["PATH"].split(os.pathsep):
        for it in Path(place).iterdir() if Path(place).is_dir() else ():
            if it.name != "cc" and not os.path.lexists(folder / it.name):
                (folder / it.name).symlink_to(it)
    return str(folder)


def record(bench: Bench, title: str, recorder: Path, path: str) -> None:
    """Has a test of the project run with the recorder in the program's place."""
    file = bench.room / f"{title}.calls"
    words = [str(recorder) if it == "PROGRAM" else it for it in RECORDED[title]]
    words[0] = str(TOP / words[0])
    own = {"PAGE_PROGRAM": str(bench.program), "PAGE_CALLS": str(file), "PATH": path}
    how = {"stdin": subprocess.DEVNULL, "capture_output": True, "text": True, "errors": "replace"}
    done = subprocess.run(words, cwd=bench.room, env={**os.environ, **own}, check=False, **how)
    said = f"{' '.join(RECORDED[title])} with the recorder ends with {done.returncode}"
    bench.judge(done.returncode == 0, f"{said}\n{done.stdout[-1500:]}{done.stderr[-500:]}")
    if file.is_file():
        bench.calls[title] = file


def record_all(bench: Bench) -> None:
    """Records all that is replayed; the folders' answers and the deepest texts need no recorder."""
    write(bench, "cases", cases())
    write(bench, "deep", deep(of_program(bench)))
    recorder = bench.room / "recorder"
    words = [
        "gcc",
        "-O2",
        "-Wall",
        "-Wextra",
        "-Werror",
        str(TOOLS / "recorder.c"),
        "-o",
        str(recorder),
    ]
    done = subprocess.run(words, capture_output=True, text=True, check=False)
    bench.judge(done.returncode == 0, f"recorder.c does not compile\n{done.stderr}")
    if done.returncode:
        return
    path = path_without_cc(bench)
    with ThreadPoolExecutor(max(2, len(os.sched_getaffinity(0)))) as pool:
        list(pool.map(lambda it: record(bench, it, recorder, path), RECORDED))


def write(bench: Bench, title: str, calls: Iterator[Call]) -> None:
    file = bench.room / f"{title}.calls"
    file.write_bytes(b"".join(it.packed() for it in calls))
    bench.calls[title] = file
