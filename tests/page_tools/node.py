"""The module in Node: every recorded call made again in both forms of it, the rows of runs, and a
memory that is too small."""
from __future__ import annotations

import json
import shutil
import struct
import subprocess
from pathlib import Path

from .bench import TOOLS, TOP, Bench
from .calls import Call
from run_rows import Files, Rows

# Node knows memories of 64 bits without a flag from version 24 on, and not at all before 20.
WIDE_FLAG = "--experimental-wasm-memory64"
FIRST_WITH_FLAG, FIRST_WITHOUT = 20, 24
NOT_WRITTEN, OUT_OF_MEMORY = 4, 9
# Rows with more bytes of files are not made again in browsers.
MOST_KEPT = 300_000


def version() -> int:
    """The first number of Node's version, or 0 without Node."""
    if not shutil.which("node"):
        return 0
    said = subprocess.run(["node", "--version"], capture_output=True, text=True, check=False).stdout
    return int(said.strip().lstrip("v").split(".")[0] or 0)


def words_of(bench: Bench, module: Path, *flags: str) -> list[str]:
    return ["node", *flags, str(TOOLS / "node.mjs"), str(bench.page / "library.js"), str(module)]


def forms(bench: Bench) -> list[tuple[str, list[str]]]:
    """The forms of the module, with the words that run each."""
    found = [("of 32 bits", words_of(bench, bench.page / "tilugba.wasm"))]
    flags = [] if version() >= FIRST_WITHOUT else [WIDE_FLAG]
    if bench.wide and version() >= FIRST_WITH_FLAG:
        found.append(("of 64 bits", words_of(bench, bench.wide, *flags)))
    elif bench.wide:
        bench.pass_over("the module of 64 bits in Node", "Node 20 or later")
    return found


def replay(bench: Bench) -> None:
    """Each recorded call gives the same bytes and status."""
    titles, files = list(bench.calls), list(map(str, bench.calls.values()))
    for form, words in forms(bench):
        done = subprocess.run([*words, *files], capture_output=True, text=True, check=False)
        lines = done.stdout.splitlines()
        bench.judge(len(lines) == len(files), f"Node ends with {done.returncode}: {done.stderr}")
        for title, line in zip(titles, lines):
            found = json.loads(line)
            told = "\n".join(found["told"])
            bench.judge(found["good"] > 0, f"no call of {title} was recorded")
            bench.judge(not found["bad"], f"{title}, module {form}: {found['bad']} differ\n{told}")
            counted = f"{found['good']} calls of {title} the same, module {form}, in Node"
            print(
                f"{counted}, {found['milliseconds']} ms, statuses {found['statuses']}", flush=True
            )


class Server:
    """A process of Node that answers calls."""

    def __init__(self, words: list[str]):
        pipes = {"stdin": subprocess.PIPE, "stdout": subprocess.PIPE}
        self.process = subprocess.Popen(words, **pipes)

    def __enter__(self) -> Server:
        return self

    def __exit__(self, *_: object) -> None:
        self.process.stdin.close()
        self.process.wait(20)

    def read(self, size: int) -> bytes:
        found = self.process.stdout.read(size)
        if len(found) != size:
            raise RuntimeError(f"Node ended with {self.process.wait()}")
        return found

    def run(self, words: list[str], files: Files) -> tuple[int, bytes]:
        named = [(name.encode(), text) for name, text in files.items()]
        packed = Call([it.encode() for it in words], named, 0, b"").packed()
        self.process.stdin.write(struct.pack("<I", len(packed)) + packed)
        self.process.stdin.flush()
        status, size = struct.unpack("<2I", self.read(8))
        return status, self.read(size)


def try_rows(bench: Bench) -> None:
    """The rows of runs, which say what each must print; they are kept for the browsers."""
    kept: list[bytes] = []
    with Server(words_of(bench, bench.page / "tilugba.wasm")) as server:

        def run(words: list[str], files: Files) -> tuple[int, bytes]:
            status, text = server.run(words, files)
            named = [(name.encode(), it) for name, it in files.items()]
            if sum(map(len, files.values())) <= MOST_KEPT:
                kept.append(Call([it.encode() for it in words], named, status, text).packed())
            return status, text

        Rows(bench.judge, run).take_all()
    bench.calls["rows"] = bench.room / "rows.calls"
    bench.calls["rows"].write_bytes(b"".join(kept))


def try_small_memory(bench: Bench) -> None:
    """With a memory of 64 MiB a run that needs more has status 9, and a later one is answered."""
    head = "portfolio 1;\namounts 2;\nparty A, B;\nasset EUR;\n"
    term = "pay(EUR, A, B)"
    many = head + "".join(f"contract c{it} = {term};\n" for it in range(400000))
    little = {"book": f"{head}contract c = {term};\n".encode()}
    with Server(words_of(bench, bench.limited())) as server:
        status, text = server.run(["check", "book"], {"book": many.encode()})
        said = f"{len(many)} bytes in 64 MiB are status {status} with {len(text)} bytes"
        bench.judge((status, text) == (OUT_OF_MEMORY, b""), said)
        found = server.run(["flows", "book"], little)
        bench.judge(found == (0, b"c,0,A,B,EUR,1.00\n"), f"a run after one without memory: {found}")


def try_words(bench: Bench) -> None:
    """The program of Node gives what each example has, and a status where it cannot write."""
    program = ["node", str(bench.page / "node.js")]
    how = {"stdin": subprocess.DEVNULL, "capture_output": True, "check": False}
    for file in sorted((TOP / "examples").glob("*/command")):
        words = file.read_text(encoding="utf-8").splitlines()
        done = subprocess.run([*program, *words], cwd=file.parent, **how)
        wanted = (file.parent / "output").read_bytes()
        said = f"{file.parent.name} by node.js: {done.returncode} {done.stdout!r} {done.stderr!r}"
        bench.judge((done.returncode, done.stdout) == (0, wanted), said)
    done = subprocess.run([*program, "check", "no file"], cwd=bench.room, **how)
    bench.judge((done.returncode, done.stdout) == (3, b"fault read 1\n"), f"no file: {done}")
    with open("/dev/full", "wb") as full:
        how = {"stdin": subprocess.DEVNULL, "stdout": full, "check": False}
        done = subprocess.run([*program, "sample", "1"], **how)
    bench.judge(done.returncode == NOT_WRITTEN, f"a full device: status {done.returncode}")


def try_node(bench: Bench) -> None:
    if not version():
        bench.pass_over("the module in Node", "nodejs")
        return
    try_words(bench)
    try_rows(bench)
    try_small_memory(bench)
    replay(bench)
