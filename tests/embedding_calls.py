"""Calls of a library in this process, embedding_calls.py LIBRARY: all rows of crates/run_rows that need no file and no output that fails,
all examples and all cases, byte for byte and with their statuses. It ends with one line, `N passed, N failed`."""
from __future__ import annotations

import os
import sys
from pathlib import Path

sys.dont_write_bytecode = True
TOP = Path(__file__).resolve().parents[1]
sys.path.insert(0, str(TOP / "desk"))

from run_rows import Files, Rows
from tilugba.native import Native


class Bench:
    """Counts what holds, and says what does not."""

    def __init__(self, library: Native):
        self.library = library
        self.passed = self.failed = 0

    def judge(self, holds: bool, said: str) -> None:
        self.passed += holds
        self.failed += not holds
        if not holds:
            print(said[:2000], flush=True)

    def run(self, words: list[str], files: Files) -> tuple[int, bytes]:
        return self.library.call([it.encode() for it in words], {name.encode(): text for name, text in files.items()})


def try_folder(bench: Bench, folder: Path) -> None:
    """An example, or a case: the files that its words name are lent."""
    words = (folder / "command").read_bytes().splitlines()
    named = {word: folder / os.fsdecode(word) for word in words if word}
    files = {word: path.read_bytes() for word, path in named.items() if path.is_file()}
    status = folder / "status"
    wanted = int(status.read_text(encoding="ascii")) if status.exists() else 0, (folder / "output").read_bytes()
    got = bench.library.call(words, files)
    bench.judge(got == wanted, f"{folder.relative_to(TOP)}: wanted {wanted}, got {got}")


def main() -> int:
    bench = Bench(Native(sys.argv[1]))
    rows = Rows(bench.judge, bench.run)
    rows.take_all()
    folders = sorted(it.parent for top in ("examples", "tests/cases") for it in (TOP / top).glob("*/command"))
    for folder in folders:
        try_folder(bench, folder)
    bench.judge(len(folders) > 100, f"there are {len(folders)} examples and cases")
    print(f"{bench.passed} passed, {bench.failed} failed")
    return 0 if bench.passed and not bench.failed else 1


sys.exit(main())
