"""The library in a package of a release, used as one gets it: tests/embedding reads this for its
part `package`.

The package is unpacked in a folder with a blank in its name. There a program of C is compiled by
the header over both libraries, one of Rust over the crate, and the wheel is installed without a
network; each answers.
"""

from __future__ import annotations

import os
import re
import shutil
import subprocess
import sys
import tarfile
from collections.abc import Callable
from pathlib import Path

TOP = Path(__file__).resolve().parents[1]
PAGE = TOP / "docs/EMBEDDING.md"
C_ANSWER = "status 0, 29 bytes\nloan,92,Shop,Bank,EUR,105.00\n"
RUST_ANSWER = "RATE of day 90 is missing\nShop pays Bank 52.50\n5250 at 2 decimals\n"
PYTHON_ANSWER = "2026-01-05 Bank pays Shop 100.00 EUR\n2026-04-07 Shop pays Bank 105.00 EUR\n"
OF_THE_REPOSITORY = ("PYTHONPATH", "TILUGBA_LIBRARY", "TILUGBA_LIB_DIR", "TILUGBA")
Judge = Callable[[bool, str], None]
PassOver = Callable[[str, str], None]


def run(*words: str | Path, **environment: str) -> subprocess.CompletedProcess[str]:
    """A command, with all that it says, and nothing of this repository in its environment."""
    kept = {name: it for name, it in os.environ.items() if name not in OF_THE_REPOSITORY}
    how = {"stdin": subprocess.DEVNULL, "stdout": subprocess.PIPE, "stderr": subprocess.STDOUT}
    how |= {"text": True, "errors": "replace", "check": False}
    return subprocess.run([str(it) for it in words], env={**kept, **environment}, **how)


def shown(name: str) -> str:
    """A file that the page on the library shows."""
    found = re.search(
        rf"^```\w+ {re.escape(name)}\n(.*?)^```$", PAGE.read_text(encoding="utf-8"), re.M | re.S
    )
    return found[1] if found else ""


def try_package(library: Path, program: str, room: Path, judge: Judge, pass_over: PassOver) -> None:
    """Makes a trial of a package with this library, twice, and uses what it has of it."""
    folders = [room / "package", room / "package again"]
    for folder in folders:
        done = run(TOP / "release/package", "--trial", program, folder, "--library", library)
        judge(done.returncode == 0 and not done.stdout, f"release/package: {done.stdout}")
    first, second = (
        {it.name: it.read_bytes() for it in sorted(folder.iterdir())} for folder in folders
    )
    judge(
        first == second and len(first) == 4,
        f"two packages of one library are not the same: {list(first)}",
    )
    with tarfile.open(next(folders[0].glob("*.tar.gz"))) as archive:
        archive.extractall(room / "a new place", filter="data")
    top = next((room / "a new place").iterdir())
    for name in ("libtilugba.a", "libtilugba.so", "libtilugba.made"):
        judge(
            (top / "lib" / name).read_bytes() == (library / name).read_bytes(),
            f"{name} in the package is another",
        )
    try_c(top, room, judge)
    try_wheel(top, room, judge)
    if shutil.which("cargo"):
        try_rust(top, room, judge)
    else:
        pass_over("the crate of Rust in a package", "cargo")
    if shutil.which("lintian"):
        done = run("lintian", next(folders[0].glob("*.deb")))
        judge(done.returncode == 0 and "E:" not in done.stdout, f"lintian: {done.stdout}")
    else:
        pass_over("the package of Debian with the library", "lintian")


def try_c(top: Path, room: Path, judge: Judge) -> None:
    source = room / "packed.c"
    source.write_text(shown("first.c"), encoding="utf-8")
    ways = {
        "the archive": [top / "lib/libtilugba.a"],
        "the shared library": [f"-L{top}/lib", "-ltilugba", f"-Wl,-rpath,{top}/lib"],
    }
    for title, words in ways.items():
        made = run("gcc", f"-I{top}/include", source, *words, "-o", room / "packed")
        done = run(room / "packed") if made.returncode == 0 else made
        judge(done.stdout == C_ANSWER, f"C over {title} of the package: {done.stdout}")


def try_wheel(top: Path, room: Path, judge: Judge) -> None:
    place, script = room / "packed venv", room / "packed.py"
    script.write_text(shown("first.py"), encoding="utf-8")
    wheel = next((top / "share/tilugba").glob("*.whl"))
    made = run(sys.executable, "-m", "venv", place)
    if made.returncode == 0:
        made = run(place / "bin/python", "-m", "pip", "install", "--no-index", "-q", wheel)
    done = run(place / "bin/python", script, PATH="/usr/bin:/bin") if made.returncode == 0 else made
    judge(done.stdout == PYTHON_ANSWER, f"Python over the wheel of the package: {done.stdout}")


def try_rust(top: Path, room: Path, judge: Judge) -> None:
    crate = room / "packed crate"
    (crate / "src").mkdir(parents=True)
    own = f"{top}/share/tilugba/rust/tilugba"
    (crate / "Cargo.toml").write_text(
        shown("loans/Cargo.toml").replace("../rust/tilugba", own), encoding="utf-8"
    )
    (crate / "src/main.rs").write_text(shown("loans/src/main.rs"), encoding="utf-8")
    here = {"TILUGBA_LIB_DIR": f"{top}/lib", "CARGO_TARGET_DIR": str(room / "packed target")}
    done = run(
        "cargo", "run", "--quiet", "--offline", "--manifest-path", crate / "Cargo.toml", **here
    )
    judge(done.stdout == RUST_ANSWER, f"Rust over the crate of the package: {done.stdout}")
