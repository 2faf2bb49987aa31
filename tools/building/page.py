"""Makes the folder of the page: the module, the files of `page`, those of CodeMirror and Chart.js,
and what the page reads from the sources: the commands, the words of the language, the sentences of
faults, the recipes, and what it was made of.
"""
from __future__ import annotations

import contextlib
import hashlib
import json
import re
import shutil
import subprocess
import sys
import tempfile
import tomllib
from collections.abc import Iterator
from dataclasses import dataclass
from pathlib import Path

from . import recipes
from .compiling import telling
from .elsewhere import MACHINES, Elsewhere
from .library import CRATE
from .sources import Sources, Stop
from .toolchain import Toolchain

JAVASCRIPT = Path("/usr/share/javascript")
# Packages of Debian, the folder of each, what is taken of it, and the file of its copyright.
PACKAGES = {
    "libjs-codemirror": (
        "codemirror",
        """lib/codemirror.js lib/codemirror.css addon/mode/simple.js addon/edit/matchbrackets.js
        addon/hint/show-hint.js addon/hint/show-hint.css addon/display/placeholder.js
        addon/selection/active-line.js addon/comment/comment.js addon/search/searchcursor.js""",
    ),
    "libjs-chart.js": ("chart.js", "chart.min.js"),
}
# The statements that a licence asks to be passed on are in these files.
COPYRIGHTS = Path("/usr/share/doc")
# What a module depends on, beside the sources of its crate and the toolchain.
TOOLS = ("compiling.py", "elsewhere.py", "library.py", "retarget.py", "wasm.py")
MARKS = "; , : ( ) = .. + - * < <= > >= != & |".split()
# Words that plans have beside the reserved ones.
WORDS_OF_PLANS = """schedules leg swap guarded against until covers of from to first every
times round half_even half_away floor ceil""".split()
KIND = re.compile(r"^\| `([a-z0-9]+)([^|]*)` \|")
LINK = re.compile(r"\[([^\]]*)\]\([^)]*\)")


def json_of(data: object) -> bytes:
    return f"{json.dumps(data, ensure_ascii=False, separators=(',', ':'))}\n".encode()


# ---- What the page reads from the sources


def language(top: Path) -> dict:
    """The words of the languages, by the list of docs/FORMATS.md, and their marks."""
    text = (top / "docs/FORMATS.md").read_text(encoding="utf-8")
    block = re.search(r"reserved words:\n\n```\n(.*?)```", text, re.S)
    if not block:
        raise Stop("docs/FORMATS.md has no list of reserved words")
    return {"words": block[1].split(), "marks": MARKS, "plans": WORDS_OF_PLANS}


def rows(table: str) -> Iterator[tuple[str, list[str]]]:
    """The rows of a table of faults: the kind, and what is said of it, without its links."""
    for line in table.splitlines():
        found = KIND.match(line)
        if found:
            cells = LINK.sub(r"\1", line).strip("| ").split(" | ")[1:]
            yield found[1], [it.strip() for it in cells]


def faults(top: Path) -> dict:
    """The sentences of docs/FAULTS.md: by the kind of a text's fault, by the rule of a refusal, by
    the kind of a bad row in each kind of table. Each is what is wrong, and perhaps what to do."""
    text = (top / "docs/FAULTS.md").read_text(encoding="utf-8")
    parts = dict(re.findall(r"^## ([^\n]+)\n(.*?)(?=^## |\Z)", text, re.M | re.S))
    fixings, rest = parts["Tables"].split("A curve of `value`")
    curve, scenarios = rest.split("A table of scenarios has four fields")
    of_contracts, of_plans = parts["Contracts"].split("\n### ")[0].split("| Rule |")[1:3]
    found = {
        "text": dict(rows(parts["Texts"].split("\n### ")[0])),
        "rule": {kind: [said[-1]] for kind, said in rows(of_contracts)},
        "plan": {kind: [said[-1]] for kind, said in rows(of_plans)},
        "fixings": dict(rows(fixings)),
        "curve": dict(rows(curve)),
        "scenarios": {},
    }
    for kind, said in rows(scenarios):
        found["scenarios"].setdefault(kind, said)
    found["scenarios"] = {**found["fixings"], **found["scenarios"]}
    if min(map(len, found.values())) < 3:
        raise Stop("docs/FAULTS.md has no table of the kinds of a fault where one was")
    return found


def said_by_git(top: Path, *words: str) -> str:
    try:
        done = subprocess.run(
            ["git", *words],
            cwd=top,
            stdin=subprocess.DEVNULL,
            capture_output=True,
            text=True,
            check=False,
        )
    except OSError:
        return ""
    return done.stdout.strip() if done.returncode == 0 else ""


def sum_of_tools(top: Path) -> str:
    """The checksum of what makes the module of its sources."""
    found = hashlib.sha256()
    for file in [top / "tools/building" / it for it in TOOLS] + sorted(MACHINES.iterdir()):
        found.update(file.read_bytes())
    return found.hexdigest()


def made_of(tools: Toolchain, top: Path, is_proved: bool) -> dict:
    """What the page was made of."""
    commit = said_by_git(top, "rev-parse", "HEAD")
    is_changed = bool(said_by_git(top, "status", "--porcelain"))
    return {
        "version": (top / "VERSION").read_text(encoding="ascii").strip(),
        "commit": commit + (" with changes" if commit and is_changed else ""),
        "sources": Sources(top, CRATE).sum(),
        "tools": sum_of_tools(top),
        "toolchain": tools.name,
        "proved": is_proved,
    }


# ---- The files of others


def packaged(package: str) -> Iterator[tuple[str, Path]]:
    """The files that are taken of a package: the path in the page's folder, and where they are."""
    folder, names = PACKAGES[package]
    for name in names.split():
        path = JAVASCRIPT / folder / name
        if not path.is_file():
            raise Stop(f"there is no {path}: install {package}")
        yield f"{folder}/{name}", path


def notice(package: str) -> str:
    """The copyright of a package; where Debian's own text is left out of a machine, it says so."""
    path = COPYRIGHTS / package / "copyright"
    if not path.is_file():
        raise Stop(
            f"there is no {path}, which the page has to have with it: install {package} anew"
        )
    return f"{'-' * 80}\n{package}\n\n{path.read_text(encoding='utf-8').strip()}\n"


def notices(top: Path, kit: Path) -> str:
    """The licence, the notices of what is linked into the module, and those of the packages."""
    sys.path.insert(0, str(top / "release"))
    from notices import notices as of_module

    head = "This page has Tilugba in it, which has the licence below, and what follows it.\n"
    licence = (top / "LICENSE").read_text(encoding="utf-8").strip()
    texts = [head, licence, "", of_module(str(kit / "rattle")), *map(notice, PACKAGES)]
    return "\n".join(texts)


# ---- The folder


def commands(top: Path) -> dict:
    """The table of commands, each with what it does, as its page tells it first."""
    sys.path.append(str(top / "desk"))
    from command_pages import prose

    table = tomllib.loads((top / "commands.toml").read_text(encoding="utf-8"))
    for it in table["command"]:
        told = (top / f"docs/commands/{it['name']}.md").read_text(encoding="utf-8")
        it["about"] = prose(told, "<!-- made of")
    return table


def fill(folder: Path, tools: Toolchain, top: Path, module: Path, is_proved: bool) -> None:
    """Writes all files of the page into a new folder."""
    for file in sorted((top / "page").iterdir()):
        shutil.copyfile(file, folder / file.name)
    shutil.copyfile(module, folder / "tilugba.wasm")
    for package in PACKAGES:
        for name, path in packaged(package):
            (folder / name).parent.mkdir(parents=True, exist_ok=True)
            # (a map of sources that is not there would be asked for)
            text = path.read_text(encoding="utf-8")
            (folder / name).write_text(
                re.sub(r"\n//# sourceMappingURL=.*", "", text), encoding="utf-8"
            )
    data = {"commands": commands(top), "language": language(top), "faults": faults(top)}
    data["made"] = made_of(tools, top, is_proved)
    data["recipes"] = recipes.recipes(top)
    for name, value in data.items():
        (folder / f"{name}.json").write_bytes(json_of(value))
    (folder / "NOTICES.txt").write_text(notices(top, tools.kit), encoding="utf-8")


def fill_again(tools: Toolchain, top: Path, out: Path) -> None:
    """Makes an unproved page anew around its module, which stays."""
    folder = beside(out, "new")
    folder.mkdir()
    fill(folder, tools, top, out / "tilugba.wasm", is_proved=False)
    replace(folder, out)


def refuse_other(out: Path) -> None:
    """A folder that is not empty is replaced only if it is one of a page."""
    if out.exists() and any(out.iterdir()) and not (out / "made.json").is_file():
        raise Stop(f"{out} is no folder of a page, and not empty: name another")


def beside(path: Path, end: str) -> Path:
    """A path beside another, for what is about to take its place or has lost it."""
    found = path.with_name(f"{path.name}.{end}")
    if found.is_dir():
        shutil.rmtree(found)
    return found


def replace(folder: Path, out: Path) -> None:
    """Puts a new folder in the place of another, which is there again if that fails."""
    old = beside(out, "old")
    if out.exists():
        out.rename(old)
    try:
        folder.rename(out)
    except BaseException:
        if old.exists() and not out.exists():
            old.rename(out)
        raise
    shutil.rmtree(old, ignore_errors=True)


def put(file: Path, to: Path, mode: int = 0o644) -> None:
    """Puts a file in the place of another by one rename."""
    to.parent.mkdir(parents=True, exist_ok=True)
    new = to.with_name(f"{to.name}.new")
    shutil.copyfile(file, new)
    new.chmod(mode)
    new.rename(to)


@dataclass(frozen=True)
class Wanted:
    """What is to be made: the page's folder, and perhaps a file for its module with addresses of
    64 bits, and a folder for the library and the program of aarch64. With `is_proved` it is made of
    the proved crate, and with `only_kept` over what the gate has kept alone."""

    out: Path
    is_proved: bool
    wide: Path | None = None
    aarch64: Path | None = None
    only_kept: bool = False


def look_at_tools() -> None:
    """Stops if something is missing that is wanted in the end."""
    for package in PACKAGES:
        list(packaged(package))
        notice(package)
    if not shutil.which("wasm-opt"):
        raise Stop("there is no wasm-opt in the PATH: install binaryen")


def build(tools: Toolchain, top: Path, wanted: Wanted) -> None:
    """Makes what is wanted, of one module."""
    look_at_tools()
    refuse_other(wanted.out)
    with tempfile.TemporaryDirectory(prefix="tilugba-") as place:
        making = Elsewhere(tools, top, Path(place))
        over = contextlib.nullcontext()
        if wanted.is_proved:
            over = making.over_proved(wanted.only_kept)
        with over, telling():
            (making.keep_proved if wanted.is_proved else making.keep_unproved)()
            wide, small = making.webassembly()
            made = making.aarch64(wanted.is_proved) if wanted.aarch64 else None
        wanted.out.parent.mkdir(parents=True, exist_ok=True)
        folder = beside(wanted.out, "new")
        folder.mkdir()
        fill(folder, tools, top, small, wanted.is_proved)
        replace(folder, wanted.out)
        if wanted.wide:
            put(wide, wanted.wide)
        if wanted.aarch64 and made:
            put(made[0], wanted.aarch64 / "libtilugba.a")
            put(made[1], wanted.aarch64 / "tilugba", 0o755)
            put(wanted.out / "made.json", wanted.aarch64 / "made.json")
