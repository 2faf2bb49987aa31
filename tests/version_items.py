"""What a version of the program reads and prints, item by item, as docs/FORMATS.md and commands.toml have it, and whether a run that
was kept shows it.
"""
import os
import re
import sys
from collections.abc import Callable, Iterator
from dataclasses import dataclass

sys.path.insert(0, os.path.join(os.path.dirname(os.path.abspath(__file__)), "..", "tools"))

from command_table import Table

# The system gives these, and no file does.
OF_THE_SYSTEM = {4, 9}
TOKEN = re.compile(r"#[^\n]*|\s+|([A-Za-z_]\w*|\d{4}-\d\d-\d\d|\d+(?:\.\d+)?|\.\.|[<>!]=|.)", re.S)


@dataclass(frozen=True)
class Case:
    """A run that was kept: its words, the files that it read, what it printed, and its status."""

    name: str
    folder: str
    words: tuple[str, ...]
    output: bytes
    status: int

    def texts(self) -> list[str]:
        """The files that the words name, and what was printed."""
        paths = [os.path.join(self.folder, word) for word in self.words[1:]]
        found = []
        for path in paths:
            if os.path.isfile(path):
                with open(path, "rb") as file:
                    found.append(file.read().decode("utf-8", "replace"))
        return [*found, self.output.decode()]


@dataclass(frozen=True)
class Item:
    """Something that is to stay, and whether a case shows it."""

    name: str
    is_in: Callable[[Case], bool]


def read_case(name: str, folder: str) -> Case:
    """The case of a folder: `command`, one word a line, `output`, and `status` if that is not 0."""
    with open(os.path.join(folder, "command"), encoding="utf-8", errors="surrogateescape") as file:
        words = tuple(file.read().split("\n")[:-1])
    with open(os.path.join(folder, "output"), "rb") as file:
        output = file.read()
    path = os.path.join(folder, "status")
    status = 0
    if os.path.exists(path):
        with open(path, encoding="ascii") as file:
            status = int(file.read())
    return Case(name, folder, words, output, status)


def section(page: str, title: str) -> str:
    """The part of a page below a heading."""
    found = re.search(rf"^## {re.escape(title)}\n(.*?)(?=^## |\Z)", page, re.M | re.S)
    if not found:
        raise ValueError(f"docs/FORMATS.md has no section {title}")
    return found[1]


def tokens(text: str) -> set[str]:
    return {it for it in TOKEN.findall(text) if it}


def head_of(text: str) -> tuple[str, ...]:
    """The word and the version with which a text begins."""
    return tuple([it for it in TOKEN.findall(text) if it][:2])


# ---- Texts


def grammars(page: str) -> Iterator[tuple[tuple[str, str], set[str]]]:
    """The word and the version of each grammar, with the tokens that it has in quotes."""
    for block in re.findall(r"^```\n(.*?)^```", page, re.M | re.S):
        head = re.search(r'^\w+ += "(\w+)" "(\d)" ";"', block, re.M)
        if head:
            yield (head[1], head[2]), set(re.findall(r'"([^"]+)"', block))


def of_texts(page: str) -> Iterator[Item]:
    for head, found in grammars(page):
        kind = " ".join(head)
        for token in sorted(found - {head[1]}):
            yield Item(f"{kind}: {token}", lambda case, head=head, token=token: shows_token(case, head, token))


def shows_token(case: Case, head: tuple[str, str], token: str) -> bool:
    """Whether a text of this version that parses has the token."""
    if case.status in (2, 3, 5, 6):
        return False
    return any(head_of(text) == head and token in tokens(text) for text in case.texts())


def of_text_faults(page: str) -> Iterator[Item]:
    part = section(page, "Faults of a text")
    kinds = {*re.findall(r"^\| (\w+) \|", part, re.M), "utf8"} - {"Kind"}
    for kind in sorted(kinds):
        yield Item(f"fault of a text: {kind}", lambda case, kind=kind: prints(case, rf"fault text {kind} line \d+ column \d+\n"))


def prints(case: Case, pattern: str) -> bool:
    return bool(re.fullmatch(pattern, case.output.decode("utf-8", "replace")))


# ---- Tables

# The part of the section on tables in which each is told.
TABLES = {"fixings": "Fixings", "curve": "A curve", "scenarios": "Scenarios"}


def of_tables(page: str) -> Iterator[Item]:
    part = section(page, "Tables")
    for place, (table, title) in enumerate(TABLES.items()):
        told = part.split(f"**{title}**")[1].split("\n**")[0]
        header = re.search(r"first record is `([a-z,]+)`", told)[1]
        yield Item(f"table: {header}", lambda case, header=header: shows_header(case, header))
        kinds = [it for row in re.findall(r"^\| ([a-z, ]+) \|", told, re.M) for it in row.split(", ")]
        for kind in kinds:
            yield Item(f"fault of {table}: {kind}", lambda case, table=table, kind=kind: has_row_fault(case, table, kind))


def shows_header(case: Case, header: str) -> bool:
    return case.status == 0 and any(text.lstrip("\ufeff").startswith(header + "\n") for text in case.texts()[:-1])


def has_row_fault(case: Case, table: str, kind: str) -> bool:
    place = 3 if table == "curve" else 2
    if (case.words[0] == "scenarios") != (table == "scenarios") and table != "curve":
        return False
    return prints(case, rf"fault row file {place} record \d+ {kind}( with \d+)?\n")


# ---- Lines


def of_fault_lines(page: str) -> Iterator[Item]:
    """Each form in the table of fault lines, whose words in capitals stand for something."""
    for form in re.findall(r"\| `(fault [^`]+)`", section(page, "Fault lines")):
        pattern = re.sub(r"\b[A-Z]+\b", r"\\S+", re.sub(r"\bKIND\b", r"[a-z]+( with \\d+)?", form))
        yield Item(f"line: {form}", lambda case, pattern=pattern: prints(case, pattern + "\n"))


def of_check_lines(page: str) -> Iterator[Item]:
    rules = re.search(r"RULE is one of ([^.]*)\.", section(page, "Check lines"))[1]
    patterns = {f"refused {it}": rf"\w+ refused {it} node \d+" for it in re.findall(r"`(\w+)`", rules)}
    patterns["accepted start S"] = r"\w+ accepted start \d+ scale \d+ total [\d.]+ horizon \d+"
    patterns["accepted always"] = r"\w+ accepted start always scale \d+ total [\d.]+ horizon \d+"
    for name, pattern in patterns.items():
        yield Item(f"check line: {name}", lambda case, pattern=pattern: case.words[0] == "check" and has_line(case, pattern))


def has_line(case: Case, pattern: str) -> bool:
    return bool(re.search(f"^{pattern}$", case.output.decode("utf-8", "replace"), re.M))


def of_days(table: Table) -> Iterator[Item]:
    """Days are printed as numbers and as dates."""
    for command in ("flows", "positions", "settle", "advance", "novate"):
        for name, day in (("number", r"\d+"), ("date", r"\d{4}-\d\d-\d\d")):
            pattern = rf"(# )?([\w*]+,)?{day},\w+,.*"
            yield Item(
                f"lines of {command}: days as {name}s",
                lambda case, command=command, pattern=pattern: case.words[0] == command and has_line(case, pattern),
            )


# ---- Words and statuses


def of_words(table: Table) -> Iterator[Item]:
    for name, command in table.commands.items():
        yield Item(f"command: {name}", lambda case, name=name: is_done(case, name))
        for option in command.options:
            word = f"--{option.name}"
            yield Item(f"command: {name} {word}", lambda case, name=name, word=word: is_done(case, name) and has_word(case, word))
        if command.has_settings:
            yield Item(f"command: {name} T=N", lambda case, name=name: is_done(case, name) and has_setting(case))


def is_done(case: Case, command: str) -> bool:
    return case.words[0] == command and case.status == 0


def has_word(case: Case, option: str) -> bool:
    return any(word == option or word.startswith(option + "=") for word in case.words)


def has_setting(case: Case) -> bool:
    return any(re.fullmatch(r"[A-Za-z_]\w*=\d+", word) for word in case.words)


def of_statuses(table: Table) -> Iterator[Item]:
    for number, status in table.statuses.items():
        if not status.of and number not in OF_THE_SYSTEM:
            yield Item(f"status: {number}", lambda case, number=number: case.status == number)


def items(page: str, table: Table) -> list[Item]:
    """All that is to stay and that a file can show."""
    parts = [of_texts(page), of_text_faults(page), of_tables(page), of_fault_lines(page), of_check_lines(page)]
    parts += [of_days(table), of_words(table), of_statuses(table)]
    return [item for part in parts for item in part]
