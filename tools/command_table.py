"""The table of commands, commands.toml, as values."""

from __future__ import annotations

import tomllib
from dataclasses import dataclass
from pathlib import Path

TABLE = Path(__file__).resolve().parent.parent / "commands.toml"
# The form of a setting of `value` and `scenarios`, as it is written in the form of a command.
SETTING = "T=N"


@dataclass(frozen=True)
class Kind:
    """What a word of the command line may be."""

    name: str
    what: str
    good: tuple[str, ...]
    bad: tuple[str, ...]
    names: str = ""
    choices: tuple[str, ...] = ()


@dataclass(frozen=True)
class File:
    """A file of a command, with the name of its argument in the definition of words, and what it is."""

    name: str
    word: str
    argument: str
    is_needed: bool
    what: str


@dataclass(frozen=True)
class Option:
    """An option of a command, which takes a word of a kind, or is a flag."""

    name: str
    word: str = ""
    kind: Kind | None = None
    is_needed: bool = False


@dataclass(frozen=True)
class Status:
    """What an exit status means, and why in a line; `of` is what ends with it, if that is not the program."""

    number: int
    meaning: str
    why: str
    of: str = ""


@dataclass(frozen=True)
class Command:
    """A command of the program."""

    name: str
    files: tuple[File, ...]
    options: tuple[Option, ...]
    has_settings: bool
    has_number: bool
    does: str
    short: str
    statuses: tuple[Status, ...]
    example: str

    def form(self) -> str:
        """The form of its words: what may be left out is in brackets."""
        words = [self.name]
        words += [file.word if file.is_needed else f"[{file.word}]" for file in self.files]
        words += ["NUMBER"] if self.has_number else []
        words += [f"[{SETTING}].."] if self.has_settings else []
        for option in self.options:
            text = f"--{option.name} {option.word}".rstrip()
            words.append(text if option.is_needed else f"[{text}]")
        return " ".join(words)


@dataclass(frozen=True)
class Table:
    """All that the file says."""

    commands: dict[str, Command]
    statuses: dict[int, Status]
    kinds: dict[str, Kind]
    always: tuple[int, ...] = ()


def read_table(path: Path = TABLE) -> Table:
    """Reads the file."""
    told = tomllib.loads(path.read_text(encoding="utf-8"))
    kinds = {name: kind_of(name, it) for name, it in told["kind"].items()}
    statuses = {int(number): status_of(int(number), it) for number, it in told["status"].items()}
    commands = {it["name"]: command_of(it, told, kinds, statuses) for it in told["command"]}
    return Table(commands, statuses, kinds, tuple(told["always"]))


def kind_of(name: str, told: dict) -> Kind:
    choices = tuple(told.get("choices", ()))
    return Kind(name, told["is"], tuple(told["good"]), tuple(told["bad"]), told.get("names", ""), choices)


def status_of(number: int, told: dict) -> Status:
    return Status(number, told["meaning"], told.get("why", told["meaning"]), told.get("of", ""))


def command_of(told: dict, all_told: dict, kinds: dict[str, Kind], statuses: dict[int, Status]) -> Command:
    """A command, with its files, options and statuses in full."""
    files = [(name, True) for name in told.get("files", ())] + [(name, False) for name in told.get("optional", ())]
    why = told.get("why", {})
    numbers = sorted({*all_told["always"], *told["statuses"]})
    return Command(
        name=told["name"],
        files=tuple(file_of(name, all_told["file"][name], is_needed) for name, is_needed in files),
        options=tuple(option_of(it, kinds) for it in told.get("options", ())),
        has_settings=told.get("settings", False),
        has_number=told.get("number", False),
        does=told["does"],
        short=told["short"],
        statuses=tuple(
            Status(number, statuses[number].meaning, why.get(str(number), statuses[number].why)) for number in numbers
        ),
        example=told["example"],
    )


def file_of(name: str, told: dict, is_needed: bool) -> File:
    return File(name, told["word"], told.get("argument", name), is_needed, told["is"])


def option_of(told: dict, kinds: dict[str, Kind]) -> Option:
    kind = kinds[told["takes"]] if "takes" in told else None
    return Option(told["name"], told.get("word", ""), kind, told.get("needed", False))
