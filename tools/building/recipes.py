"""The recipes of the page: each command that a page of docs shows, with its files.

A recipe is a section of a page with the runs in it. What a run takes is a text, or what an earlier
run of the section's page has printed into a file, which the page makes by that run. Commands of the
shell that make files are run by bash in a folder of their own, as tools/check-docs does; a file
that one makes of what a run has printed is not known here, and a run that takes it is left out.
"""
from __future__ import annotations

import re
import shlex
import subprocess
import tempfile
from collections.abc import Iterator
from dataclasses import dataclass, field
from pathlib import Path

# A page, and the name that the sections of it have in a list.
PAGES = {"TUTORIAL": "Tutorial", "COOKBOOK": "Cookbook"}
LINKS = ("examples", "docs", "tools", "desk")
OF_PROGRAM = "./tilugba "
SECONDS = 60


@dataclass
class Run:
    """A run: its words, the texts of its files, and of each other file the run that makes it."""

    words: list[str]
    files: dict[str, str]
    made: dict[str, int]


@dataclass
class Page:
    """The runs of a page, as they come, each with the title of its section."""

    folder: Path
    runs: list[Run] = field(default_factory=list)
    titles: list[str] = field(default_factory=list)
    # Of files that a run has printed, its number; None if another command made it of such a file.
    made: dict[str, int | None] = field(default_factory=dict)
    title: str = ""

    def take_file(self, name: str, text: str) -> None:
        (self.folder / name).write_text(text, encoding="utf-8")
        self.made.pop(name, None)

    def take_command(self, command: str) -> None:
        if command.startswith(OF_PROGRAM):
            self.take_run(command.removeprefix(OF_PROGRAM).replace("\\\n", " "))
            return
        target = re.search(r">+ *([\w.]+)", command)
        is_of_run = "tilugba" in command or any(
            re.search(rf"(?<![\w./]){re.escape(name)}(?![\w.])", command) for name in self.made
        )
        if target and is_of_run:
            self.made[target[1]] = None
        elif target:
            words = ["bash", "-c", command]
            how = {"stdin": subprocess.DEVNULL, "capture_output": True, "timeout": SECONDS}
            subprocess.run(words, cwd=self.folder, check=False, **how)
            self.made.pop(target[1], None)

    def take_run(self, command: str) -> None:
        """A run of the program, by the words before what takes its answer."""
        lexer = shlex.shlex(command, posix=True, punctuation_chars=True)
        lexer.whitespace_split = True
        words: list[str] = []
        target = ""
        parts = list(lexer)
        for at, part in enumerate(parts):
            if part == ">" and at + 1 < len(parts):
                target = parts[at + 1]
            if part[:1] in "|;&>":
                break
            words.append(part)
        run = self.run_of(words)
        if run:
            self.runs.append(run)
            self.titles.append(self.title)
        if target:
            self.made[target] = len(self.runs) - 1 if run else None

    def run_of(self, words: list[str]) -> Run | None:
        """The run of these words, if all its files are known."""
        run = Run(words, {}, {})
        for word in words[1:]:
            if word in self.made:
                number = self.made[word]
                if number is None:
                    return None
                run.made[word] = number
            elif word and (self.folder / word).is_file():
                run.files[word] = (self.folder / word).read_text(encoding="utf-8")
        return run


def blocks(text: str) -> Iterator[tuple[str, str]]:
    """The headings and the blocks of a page: a title, or the head of a block and its lines."""
    inside = None
    lines: list[str] = []
    for line in text.splitlines():
        if inside is None and line.startswith("```"):
            inside, lines = line[3:].strip(), []
        elif inside is not None and line.startswith("```"):
            yield inside, "".join(f"{it}\n" for it in lines)
            inside = None
        elif inside is not None:
            lines.append(line)
        elif line.startswith("## "):
            yield "##", line[3:].strip()


def commands(block: str) -> Iterator[str]:
    """The commands of a block of the console, without what they print."""
    command = ""
    for line in block.splitlines():
        if line.startswith("$ "):
            if command:
                yield command
            command = line[2:]
        elif line.startswith("> ") and command:
            command += f"\n{line[2:]}"
    if command:
        yield command


def page(top: Path, name: str) -> Page:
    """The runs of a page of docs."""
    with tempfile.TemporaryDirectory(prefix="tilugba-page-") as place:
        found = Page(Path(place))
        for it in LINKS:
            (found.folder / it).symlink_to(top.resolve() / it)
        for head, text in blocks((top / f"docs/{name}.md").read_text(encoding="utf-8")):
            if head == "##":
                found.title = text
            elif head.startswith("text "):
                found.take_file(head[5:], text)
            elif head.split()[:1] == ["console"]:
                for command in commands(text):
                    found.take_command(command)
        return found


def recipes(top: Path) -> dict:
    """All recipes, for the page: of each page its title and its runs, and of each section which of
    them are in it. A text is named by its number in one list."""
    texts: dict[str, int] = {}
    pages = []
    for name, title in PAGES.items():
        taken = page(top, name)
        runs = []
        for it in taken.runs:
            files = {key: texts.setdefault(text, len(texts)) for key, text in it.files.items()}
            runs.append({"words": it.words, "files": files, "made": it.made})
        sections: dict[str, list[int]] = {}
        for number, section in enumerate(taken.titles):
            sections.setdefault(section, []).append(number)
        pages.append({"page": title, "runs": runs, "sections": sections})
    return {"texts": list(texts), "pages": pages}
