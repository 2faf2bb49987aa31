"""The runs of the program that pages show, with the texts that each reads, and the links that open
the page for browsers with such a run.

The commands of a page are run by bash in a folder of its own, as tools/check-docs does: those that
run the program, and those that make a file that a later one takes. There ./tilugba is a recorder:
it notes the words and the files that they name, and goes on as the program. So a run over files
that an earlier command made is known. Blocks that want other tools are left out, and so are loops,
and runs that the form of the page has no place for: an invalid command line, a missing file.
"""
from __future__ import annotations

import base64
import json
import os
import re
import signal
import subprocess
import sys
import tempfile
import tomllib
import zlib
from concurrent.futures import ThreadPoolExecutor
from dataclasses import dataclass
from pathlib import Path

from building.recipes import blocks, commands

TOP = Path(__file__).resolve().parents[1]
LINKED = ("docs", "examples", "tools", "desk", "crates", "include", "rust")
FILE = re.compile(r"(?:text|python|c|rust|toml) (.+)")
SHOWN = "./tilugba"
TABLE = tomllib.loads((TOP / "commands.toml").read_text(encoding="utf-8"))
IS_RUN = re.compile(rf"(?<!\S)\./tilugba (?:{'|'.join(it['name'] for it in TABLE['command'])}) ")
IS_LOOP = re.compile(r"(?<!\S)(?:for|while|until) ")
TARGET = re.compile(r">+ *([\w./]+)")
# What makes files and folders by its words alone.
MAKES = re.compile(r"(?:mkdir|cp|mv|ln|split) ")
NAME = re.compile(r"[\w./]+")
SECONDS = 300
RECORDER = """#!{python} -ISB
import json, os, sys
name, words = sys.argv[0], sys.argv[1:]
def text_of(word):
    try:
        if os.path.getsize(word) > {most}:
            return None
        with open(word, encoding="utf-8", newline="") as file:
            return file.read()
    except (OSError, ValueError):
        return None
if name == {shown!r}:
    files = {{it: text_of(it) for it in words[1:] if it and os.path.isfile(it)}}
    line = json.dumps([words, files]).encode() + b"\\n"
    to = os.open({record!r}, os.O_WRONLY | os.O_APPEND | os.O_CREAT)
    os.write(to, line)
    os.close(to)
os.execv({program!r}, [name, *words])
"""
FORM = 1
MARK = "#case="
# A run over longer texts has no link: no browser opens such a one.
MOST_CHARACTERS = 500_000


class Slow(Exception):
    """A command of a page that takes too long."""


@dataclass(frozen=True)
class Run:
    """A run: its words, and the texts of the files that they name; None of what is no text."""

    words: list[str]
    files: dict[str, str | None]


# ---- From pages to runs


class Folder:
    """The folder in which the commands of one page run."""

    def __init__(self, place: Path, program: Path):
        self.folder, self.record = place / "folder", place / "record"
        self.folder.mkdir()
        for it in LINKED:
            (self.folder / it).symlink_to(TOP / it)
        self.program = program
        self.recorder = place / "recorder"
        how = {"python": sys.executable, "shown": SHOWN, "most": MOST_CHARACTERS}
        text = RECORDER.format(**how, record=str(self.record), program=str(program))
        self.recorder.write_text(text, encoding="utf-8")
        self.recorder.chmod(0o755)
        path = f"{TOP / 'desk'}:{os.environ.get('PATH', '')}"
        self.environment = {**os.environ, "TILUGBA": str(program), "PATH": path}
        self.environment["PYTHONPATH"] = str(TOP / "desk")

    def put(self, name: str, text: str) -> None:
        file = self.folder / name
        file.parent.mkdir(parents=True, exist_ok=True)
        file.write_text(text, encoding="utf-8")

    def run(self, command: str) -> list[Run]:
        """Runs a command; answers the runs of the program that are to have links, as they come."""
        self.record.unlink(missing_ok=True)
        (self.folder / "tilugba").unlink(missing_ok=True)
        (self.folder / "tilugba").symlink_to(self.recorder if is_run(command) else self.program)
        how = {"stdin": subprocess.DEVNULL, "stdout": subprocess.DEVNULL, "start_new_session": True}
        how["stderr"] = subprocess.DEVNULL
        words = ["bash", "-c", command]
        process = subprocess.Popen(words, cwd=self.folder, env=self.environment, **how)
        try:
            process.wait(SECONDS)
        except subprocess.TimeoutExpired:
            os.killpg(process.pid, signal.SIGKILL)
            process.wait()
            raise Slow(f"{command} does not end in {SECONDS} seconds") from None
        if not self.record.is_file():
            return []
        lines = self.record.read_text(encoding="utf-8").splitlines()
        return [Run(*json.loads(line)) for line in lines]


def is_run(command: str) -> bool:
    return bool(IS_RUN.search(command)) and not IS_LOOP.search(command)


def wanted(parts: list[list[str]]) -> list[list[str]]:
    """Of the commands of each block, those that run the program, and those that make a file which
    one that is wanted names behind them."""
    named: set[str] = set()
    found: list[list[str]] = []
    for block in reversed(parts):
        kept = []
        for command in reversed(block):
            made = set(NAME.findall(command) if MAKES.match(command) else TARGET.findall(command))
            if is_run(command) or made & named:
                kept.append(command)
                named.update(NAME.findall(command))
        found.append(kept[::-1])
    return found[::-1]


def runs_of(page: Path, program: Path) -> list[list[Run]]:
    """The runs of each block of commands of a page, as the blocks come."""
    parts = [it for it in blocks(page.read_text(encoding="utf-8")) if it[0] != "##"]
    of_blocks = [
        list(commands(text)) if head == "console" else []
        for head, text in parts
        if head.split()[:1] == ["console"]
    ]
    left = iter(wanted(of_blocks))
    found: list[list[Run]] = []
    with tempfile.TemporaryDirectory(prefix="tilugba-site-") as place:
        folder = Folder(Path(place), program)
        for head, text in parts:
            file = FILE.fullmatch(head)
            if file:
                folder.put(file[1], text)
            elif head.split()[:1] == ["console"]:
                found.append([run for it in next(left) for run in folder.run(f"{it}\n")])
    return found


# ---- From runs to links


def case_of(run: Run) -> dict | None:
    """The run as the page keeps a case: the command, its options and its texts; None if the form of
    the page has no place for it."""
    command = next((it for it in TABLE["command"] if [it["name"]] == run.words[:1]), None)
    if command is None:
        return None
    case = {"form": FORM, "command": command["name"]}
    if command.get("number"):
        return {**case, "values": {"number": run.words[1]}, "texts": {}} if run.words[1:] else None
    options = {it["name"]: it for it in command.get("options", [])}
    values = {it: "" if of.get("takes") else False for it, of in options.items()}
    names: list[str] = []
    words = iter(run.words[1:])
    for word in words:
        name = word.removeprefix("--")
        if word != name and name in options:
            values[name] = next(words, "") if options[name].get("takes") else True
        elif command.get("settings") and "=" in word:
            template, _, days = word.partition("=")
            values[f"={template}"] = days
        else:
            names.append(word)
    roles = [*command.get("files", []), *command.get("optional", [])]
    is_whole = all(values[it] for it, of in options.items() if of.get("needed"))
    is_whole &= len(command.get("files", [])) <= len(names) <= len(roles)
    if not is_whole or any(run.files.get(it) is None for it in names):
        return None
    texts = {role: run.files[name] for role, name in zip(roles, names)}
    if sum(len(it or "") for it in texts.values()) > MOST_CHARACTERS:
        return None
    return {**case, "values": values, "texts": texts}


def fragment(case: dict) -> str:
    """The part of a link behind the page, as page/keeping.js reads it."""
    text = json.dumps(case, ensure_ascii=False, separators=(",", ":"))
    packed = base64.urlsafe_b64encode(zlib.compress(text.encode(), 9))
    return MARK + packed.decode("ascii").rstrip("=")


def case_in(found: str) -> dict:
    """The case of a fragment."""
    packed = found.removeprefix(MARK)
    return json.loads(zlib.decompress(base64.urlsafe_b64decode(packed + "=" * (-len(packed) % 4))))


# Of each block of commands of a page, the name and the fragment of each run.
Links = list[list[tuple[str, str]]]


def links_of(pages: list[Path], program: Path) -> dict[Path, Links]:
    """The links of each page."""

    def of_block(runs: list[Run]) -> list[tuple[str, str]]:
        cases = [(run, case_of(run)) for run in runs]
        return [(name_of(run), fragment(case)) for run, case in cases if case]

    def of_page(page: Path) -> Links:
        return [of_block(runs) for runs in runs_of(page, program)]

    with ThreadPoolExecutor(os.cpu_count()) as several:
        return dict(zip(pages, several.map(of_page, pages)))


def name_of(run: Run) -> str:
    """The words of a run, files without their folders."""
    return " ".join(it.rpartition("/")[2] for it in run.words)
