"""What `rt ci` has proved on this machine of the very same texts, and has kept.

The gate keeps what a run passed beside the toolchain: of a library the files that a crate above
needs, of a program the file that it built. An entry's name is a sum of all that its proof read,
which are the toolchain, the texts of the crate, what HANDLES allows, and the libraries below as
they were built. So a later gate takes an entry in place of proving the same again, and so does
this, by the same code of `rt` and in the same order: each file is held against the sum that was
kept with it.

The gate builds a program by two compilers, but no static library. It leaves no stamp beside a
library either, without which `rt lib` proves it anew. So the libraries are given, with stamps, to
a copy of the texts, and `rt lib` proves there the one crate above them alone. The copy is new each
time: `rt` takes an entry for damaged, and drops it, if its files are there already.

It rests on how the toolchain works inside, and does so for the known toolchain alone.
"""
from __future__ import annotations

import contextlib
import importlib.machinery
import importlib.util
import os
import subprocess
import sys
import tempfile
from collections.abc import Iterator
from pathlib import Path
from types import ModuleType

from .sources import CRATE
from .toolchain import Toolchain

# A program as LLVM built it is a file of the crate's name.
PROGRAM = f"crates/{CRATE}/out/{CRATE}"
TOOLS = Path(__file__).resolve().parents[1]


class NotKept(Exception):
    """Why there is nothing to take."""


@contextlib.contextmanager
def copy_over_kept(tools: Toolchain, repository: Path, crate: str) -> Iterator[Path]:
    """A copy of the texts in which each library below the crate is the one that the gate proved of
    them and, if the crate is a program, so is that. Raises NotKept if one of them is not kept."""
    if not tools.is_known:
        raise NotKept("the inside of this toolchain is not known")
    with tempfile.TemporaryDirectory(prefix="tilugba-") as room:
        words = [sys.executable, "-B", "-m", "building.kept"]
        words += [str(tools.kit), str(repository), f"{room}/copy", crate]
        how = {"capture_output": True, "text": True, "errors": "replace", "check": False}
        done = subprocess.run(words, cwd=TOOLS, **how)
        if done.returncode:
            said = (done.stdout + done.stderr).strip().splitlines()
            raise NotKept(said[-1] if said else f"status {done.returncode}")
        yield Path(room, "copy")


# ---- What runs in a process of its own: the code of `rt` ends the process where a text is refused


def load_rt(kit: Path) -> ModuleType:
    loader = importlib.machinery.SourceFileLoader("rt_of_kit", str(kit / "bin/rt"))
    made = importlib.util.module_from_spec(importlib.util.spec_from_loader(loader.name, loader))
    sys.modules[loader.name] = made
    loader.exec_module(made)
    return made


def fill(kit: Path, repository: Path, copy: Path, name: str) -> str | None:
    """Makes the copy, and gives it what is kept; returns why that is not enough, if it is not."""
    if not (kit / "bin/rt").is_file():
        return "this toolchain keeps nothing"
    rt = load_rt(kit)
    if not os.path.isdir(getattr(rt, "STORE", "")):
        return "no gate on this machine has kept anything"
    rt.copy_crates(str(repository), str(copy))
    # It is the top of a repository.
    (copy / ".git").mkdir()
    os.chdir(copy)
    rt.Crate.allowed = rt.handles_of(str(copy))
    crates = rt.crates_of(str(copy))
    kept = rt.Kept(crates)
    top = next(it for it in crates if it.name == name)
    wanted = {*top.below(), *([top] if top.is_program else [])}
    for crate in (it for it in crates if it in wanted):
        if not kept.give(crate, False, kept.key(crate)):
            return f"no gate on this machine has proved these texts of {crate.name}"
        kept.is_built(crate)
        if not crate.is_program:
            Path(crate.folder, "out/rlib/stamp").write_text(crate.stamp(), encoding="utf-8")
    return None


if __name__ == "__main__":
    lacking = fill(Path(sys.argv[1]), Path(sys.argv[2]), Path(sys.argv[3]), sys.argv[4])
    sys.exit(lacking or 0)
