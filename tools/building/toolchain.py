"""The toolchain at hand, held against the one that the sources are proved with, whose line of `rt version` is tools/toolchain."""
from __future__ import annotations

import shutil
import subprocess
from dataclasses import dataclass
from pathlib import Path

from .sources import Stop

FILE = "tools/toolchain"


@dataclass(frozen=True)
class Toolchain:
    """What `rt version` says, and the folder that the toolchain lies in."""

    name: str
    kit: Path
    is_known: bool


def said_by_rt(word: str) -> str:
    try:
        said = subprocess.run(["rt", word], stdin=subprocess.DEVNULL, capture_output=True, text=True, errors="replace", check=False)
    except OSError as error:
        raise Stop(f"rt does not start ({error.strerror}): mend the toolchain, or put another first in the PATH") from error
    if said.returncode or not said.stdout.strip():
        raise Stop(f"`rt {word}` ends with status {said.returncode} and says nothing of use: mend the toolchain")
    return said.stdout.strip().splitlines()[-1]


def at_hand(top: Path) -> Toolchain:
    """The toolchain in the PATH. One with another logic is refused: what it proves is another statement."""
    if not shutil.which("rt"):
        raise Stop("there is no rt in the PATH, so the toolchain is not at hand: README.md says under \"Run it\" where it is found")
    version, wanted = said_by_rt("version"), (top / FILE).read_text(encoding="ascii").strip()
    if version.partition(" ")[2] != wanted.partition(" ")[2]:
        cure = f"put that one first in the PATH, or write the other into {FILE}"
        raise Stop(f"rt is `{version}`, and the sources are proved with `{wanted}`: {cure}")
    return Toolchain(version, Path(said_by_rt("doc")).parent, version == wanted)


def tools_with_compiler(kit: Path, folder: Path, script: str) -> Path:
    """Makes a folder of the toolchain's tools, with links to all but the compiler, which is the script there."""
    own = kit / "toolchain"
    (folder / "bin").mkdir(parents=True)
    for it in [*own.iterdir(), *(own / "bin").iterdir()]:
        if it not in (own / "bin", own / "bin/clang"):
            (folder / it.relative_to(own)).symlink_to(it)
    compiler = folder / "bin/clang"
    compiler.write_text(script, encoding="utf-8")
    compiler.chmod(0o755)
    return folder
