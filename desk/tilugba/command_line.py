"""The commands of the program: which files, options and numbers each takes, and what is wrong with
words that none takes.
"""

from __future__ import annotations

from collections.abc import Callable, Mapping, Sequence
from typing import NamedTuple

from .days import day_of
from .texts import tokens
from .texts.grammar import CODE, MODES, PORTFOLIO, SCHEDULES, Grammar
from .texts.offers import whole_number
from .texts.tokens import TOKEN

DAY, NAME, MODE, FLAG = "DAY", "NAME", "MODE", ""
BOOK, FIX, SCEN, CURVE, CODE_FILE, PLANS, NUMBER = (
    "PORT", "FIX", "SCEN", "CURVE", "CODE", "PLANS", "NUMBER"
)
GRAMMARS: Mapping[str, Grammar] = {BOOK: PORTFOLIO, CODE_FILE: CODE, PLANS: SCHEDULES}
MOST_DAYS, MOST_SAMPLE = 100_000, 10_000
# The form of each command: what may be left out is in brackets, and what is in capitals is a file
# or
# the value of an option.
WRITTEN = (
    # made of commands.toml by tools/check-commands
    "check PORT",
    "flows PORT [FIX] [--until DAY] [--contract NAME] [--net]",
    "advance PORT FIX --to DAY",
    "payoff PORT --contract NAME [--plain]",
    "value CODE FIX CURVE [T=N].. --at DAY --from P --to Q --asset A",
    "scenarios CODE SCEN CURVE [T=N].. --at DAY --from P --to Q --asset A --mean MODE",
    "migrate PORT",
    "expand PLANS",
    "positions PORT [FIX] [--until DAY]",
    "settle PORT [FIX] [--until DAY]",
    "novate PORT FIX --to DAY --contract NAME --old P --new Q",
    "sample NUMBER",
    # end of what is made
)
# The kinds of the values of options by the words that their forms have; all others are names.
SORTS = {"DAY": DAY, "MODE": MODE}
SETTING = "T=N"


def is_day(word: str) -> bool:
    return not word.startswith("-") and day_of(word) is not None


def is_name(word: str) -> bool:
    found = TOKEN.fullmatch(word)
    return bool(found and found["word"] == word and word not in tokens.RESERVED)


# What each kind of value is, and how it is told.
KINDS: Mapping[str, tuple[Callable[[str], bool], str]] = {
    DAY: (
        is_day, "a day, which is a number of up to nine digits or a date that exists, as 2026-01-05"
    ),
    NAME: (is_name, "a name"),
    MODE: (MODES.__contains__, f"one of {', '.join(MODES)}"),
}


class Form(NamedTuple):
    """What a command takes: its files, of which the first ones have to be there, its options with
    their kinds, and settings `T=N`. A number counts as a file.
    """

    written: str
    files: tuple[str, ...]
    least: int
    options: Mapping[str, str]
    required: tuple[str, ...]
    has_settings: bool

    def told(self) -> str:
        """The form of the command, as in the program's own pages."""
        return self.written

    @property
    def takes_files(self) -> bool:
        return self.files != (NUMBER,)


def form_of(written: str) -> Form:
    """The form that is written so."""
    options: dict[str, str] = {}
    bare: list[str] = []
    option = ""
    for word in written.split()[1:]:
        name = word.strip("[].")
        if name.startswith("--"):
            options[name], option = FLAG, "" if word.endswith("]") else name
        elif option:
            options[option], option = SORTS.get(name, NAME), ""
        else:
            bare.append(word)
    return Form(
        written,
        tuple(it.strip("[]") for it in bare if SETTING not in it),
        sum(not it.startswith("[") for it in bare),
        options,
        tuple(it for it in options if f"[{it}" not in written),
        has_settings=any(SETTING in it for it in bare),
    )


FORMS: Mapping[str, Form] = {it.partition(" ")[0]: form_of(it) for it in WRITTEN}


class WrongWords(Exception):
    """What is wrong with words: one line."""


class Words:
    """Words that a command takes."""

    def __init__(self, command: str) -> None:
        self.command = command
        self.files: list[str] = []
        self.options: dict[str, str] = {}
        self.settings: dict[str, int] = {}

    @property
    def form(self) -> Form:
        return FORMS[self.command]

    def file(self, role: str) -> str | None:
        """The file of a role, if it is there."""
        return dict(zip(self.form.files, self.files)).get(role)


def nearest(word: str, known: Sequence[str]) -> str | None:
    """The one of several words that is most like another, if one is like it."""
    import difflib  # it is loaded for a word that is wrong alone

    same = next((it for it in known if it.lower() == word.lower()), None)
    found = difflib.get_close_matches(word, known, 1, 0.6)
    return same or (found[0] if found else None)


def meant(word: str, known: Sequence[str]) -> str:
    found = nearest(word, known)
    return f"; perhaps {found}" if found else ""


def read(words: Sequence[str]) -> Words:
    """The words of a command, or what is wrong with them."""
    if not words:
        raise WrongWords(f"a command is missing; it is one of {', '.join(FORMS)}")
    command = words[0]
    if command in ("help", "-h", "--help", "--version"):
        raise WrongWords(f"the program has no {command}; its commands are {', '.join(FORMS)}")
    if command not in FORMS:
        known = meant(command, list(FORMS)) or f"; it is one of {', '.join(FORMS)}"
        raise WrongWords(f"there is no command {command}{known}")
    found = Words(command)
    bare = take_options(found, list(words[1:]))
    take_files(found, bare)
    for option in found.form.required:
        if option not in found.options:
            raise WrongWords(f"{option} is missing")
    return found


def take_options(found: Words, rest: list[str]) -> list[str]:
    """Takes the options with their values out of the words, and leaves the others."""
    bare: list[str] = []
    while rest:
        word = rest.pop(0)
        if word == "--":
            return bare + rest
        if not word.startswith("-") or word == "-":
            bare.append(word)
        else:
            take_option(found, word, rest)
    return bare


def take_option(found: Words, word: str, rest: list[str]) -> None:
    option, sign, value = word.partition("=")
    known = found.form.options
    if option not in known:
        raise WrongWords(f"{option} is no option of {found.command}{meant(option, list(known))}")
    if option in found.options:
        raise WrongWords(f"{option} is given twice")
    kind = known[option]
    if not kind:
        if sign:
            raise WrongWords(f"{option} takes no value")
        found.options[option] = ""
        return
    if not sign:
        if not rest or (rest[0].startswith("-") and rest[0] != "-"):
            raise WrongWords(f"{option} has no value: it takes {KINDS[kind][1]}")
        value = rest.pop(0)
    is_kind, told = KINDS[kind]
    if not is_kind(value):
        reserved = (
            f", and {value} is a word of the language"
            if kind == NAME and value in tokens.RESERVED
            else ""
        )
        raise WrongWords(f"{value or 'nothing'} behind {option} is not {told}{reserved}")
    found.options[option] = value


def take_files(found: Words, bare: list[str]) -> None:
    form = found.form
    if len(bare) < form.least:
        raise WrongWords(f"{form.files[len(bare)]} is missing")
    found.files, further = bare[: len(form.files)], bare[len(form.files) :]
    if found.command == "sample":
        take_sample(bare[0])
    for word in further:
        take_setting(found, word)


def take_sample(word: str) -> None:
    number = whole_number(word, MOST_SAMPLE) if word.isascii() and word.isdigit() else None
    if not number:
        raise WrongWords(f"{word} is not a number from 1 to 10,000")


def take_setting(found: Words, word: str) -> None:
    if not found.form.has_settings:
        raise WrongWords(f"{word} is a word too many")
    name, sign, number = word.partition("=")
    days = whole_number(number, MOST_DAYS) if number.isascii() and number.isdigit() else None
    if not sign or not is_name(name) or days is None:
        raise WrongWords(
            f"{word} is not T=N with the name of a template and a number of days up to 100,000"
        )
    if name in found.settings:
        raise WrongWords(f"{name} is set twice")
    found.settings[name] = days
