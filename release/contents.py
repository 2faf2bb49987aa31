"""What goes into a package: the files of release/contents.toml, by their paths below the prefix."""
import fnmatch
import glob
import gzip
import os
import re
import tomllib
from dataclasses import dataclass

TOP = os.path.normpath(os.path.join(os.path.dirname(os.path.realpath(__file__)), ".."))
PLAIN, EXECUTABLE = 0o644, 0o755


class Refusal(Exception):
    """Why no package is made."""


@dataclass(frozen=True)
class Entry:
    """A file of a package."""

    data: bytes
    mode: int = PLAIN


# Files by their paths.
Files = dict[str, Entry]


def read(path: str) -> bytes:
    with open(os.path.join(TOP, path), "rb") as file:
        return file.read()


def version() -> str:
    """The version that this is, or is about to be."""
    text = read("VERSION").decode().strip()
    if not re.fullmatch(r"\d+\.\d+\.\d+", text):
        raise Refusal(f"VERSION is no version: {text}")
    return text


def matches(pattern: str) -> list[str]:
    """The files of a name or a pattern, by their paths in the repository."""
    found = sorted(glob.glob(pattern, root_dir=TOP, recursive=True))
    return [it for it in found if os.path.isfile(os.path.join(TOP, it))]


# ---- The examples that pages name


def pages() -> list[str]:
    return [*matches("*.md"), *matches("docs/**/*.md"), *matches("man/*"), "commands.toml"]


def named_examples() -> set[str]:
    """The examples that a page or the table of commands names, and those whose files they use."""
    text = "\n".join(read(it).decode() for it in pages())
    names = set(re.findall(r"\bexamples/([A-Za-z0-9_*]+)", text)) | set(re.findall(r'^example = "(\w+)"', text, re.M))
    there = {it for it in os.listdir(os.path.join(TOP, "examples")) if os.path.isdir(os.path.join(TOP, "examples", it))}
    found = {it for it in there for name in names if fnmatch.fnmatchcase(it, name)}
    while more := {it for name in found for it in used_by(name)} - found:
        found |= more
    return found


def used_by(example: str) -> set[str]:
    """The examples whose files the command of an example has."""
    path = f"examples/{example}/command"
    return set(re.findall(r"^\.\./(\w+)/", read(path).decode(), re.M)) if matches(path) else set()


def examples() -> Files:
    found: Files = {}
    for path in (it for name in sorted(named_examples()) for it in matches(f"examples/{name}/**/*")):
        mode = EXECUTABLE if os.access(os.path.join(TOP, path), os.X_OK) else PLAIN
        found[path.removeprefix("examples/")] = Entry(read(path), mode)
    return found


# ---- All parts


def files_of(part: dict) -> Files:
    """The files of a part that is of the repository, by their names."""
    found: Files = {}
    for pattern in part["from"]:
        paths = matches(pattern)
        if not paths:
            raise Refusal(f"release/contents.toml: there is no {pattern}")
        for path in paths:
            name = os.path.relpath(path, part["below"]) if "below" in part else os.path.basename(path)
            found[name] = Entry(read(path), part.get("mode", PLAIN))
    return found


def packed(files: Files) -> Files:
    return {f"{name}.gz": Entry(gzip.compress(it.data, 9, mtime=0), it.mode) for name, it in files.items()}


def contents(made: dict[str, Files | Entry]) -> Files:
    """All files of the package, where `made` has what is made, by its name in release/contents.toml."""
    found: Files = {}
    for part in tomllib.loads(read("release/contents.toml").decode())["part"]:
        if part.get("with", "program") not in made:
            continue
        files = made[part["made"]] if "made" in part else files_of(part)
        if isinstance(files, Entry):
            files = {"": Entry(files.data, part.get("mode", PLAIN))}
        files = packed(files) if part.get("gzip") else files
        for name, entry in files.items():
            path = part["to"] + name if part["to"].endswith("/") else part["to"]
            if path in found:
                raise Refusal(f"release/contents.toml: two files are {path}")
            found[path] = entry
    return found
