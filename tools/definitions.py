"""The definitions of the sources, and which of them a clause reaches: what tools/what-says and
tools/check-claims share.

A file of definitions is crates/CRATE/specs/FILE.antt, with definitions that begin at the margin, or
crates/CRATE/src/FILE.rt, whose types and constants a definition may name. A clause is a `requires`
or an `ensures` of a function. A definition reaches what its text names, by the imports of its file,
and what that reaches. What the libraries of the toolchain define is not followed. Comments name
nothing. Nor does it follow how the values of a type are compared, where that is an `impl`.
"""
from __future__ import annotations

import re
from collections.abc import Callable, Iterator
from dataclasses import dataclass, field
from functools import cached_property
from pathlib import Path

TOP = Path(__file__).resolve().parent.parent
NAME = r"[^\W\d][\w'-]*"
# A word of a definition with the names behind its dots, such as `status.Usage`; or an operator.
SIGN = r"[^\s\w()\[\]{},;.:λ→∀\"'|_]+"
WORDS = re.compile(rf"{NAME}(?:\.{NAME})*|{SIGN}")
USE = re.compile(r"^ *((?:pub |ghost )?use [^;{\n]*(?:\{[^}]*\})?[^;\n]*;?)", re.M)
IMPORT = re.compile(r"(?:pub |ghost )?use ([\w.+]+?)(?:\.\{([^}]*)\}| as (\w+))?;?$")
DEFINED = re.compile(r"(?:(?:abbrev|unfoldable|pub|record|data) )+(?!use |mod )(\S+)")
TYPE = re.compile(r"(?:pub(?:\(crate\))? )?(?:struct|enum|const|trait) (\w+)")
FUNCTION = re.compile(r"\s*(?:pub(?:\(crate\))? )?(?:const )?fn (\w+)")
CLAUSE = re.compile(r"\b(requires|ensures)\b\*? ?(\w*)\s*\{")


class Fault(Exception):
    """What is wrong with what was asked, in one line."""


@dataclass(frozen=True)
class Place:
    """Where a definition is: its file, from the top of the repository, and its name there."""

    path: str
    name: str


@dataclass
class Definition:
    """A definition with the comment before it; `line` counts from 1."""

    place: Place
    line: int
    lines: list[str]

    @cached_property
    def code(self) -> str:
        """The text without comments."""
        return "\n".join(re.sub(r"(^|\s)(--|//).*", "", line) for line in self.lines)

    def made(self) -> list[str]:
        """What else it defines: the constructors of a type by cases."""
        if not re.match(r"(pub )?data ", self.code.lstrip()):
            return []
        heads = re.findall(rf"^  ({NAME}(?: {NAME})*|\S*◌\S*) :", self.code, re.M)
        return [name for head in heads for name in head.split(" ")]

    def part(self, name: str) -> Definition | None:
        """The field of this name, of a record."""
        head = re.compile(rf"  (?:pub )?{re.escape(name)} :")
        begin = next((at for at, it in enumerate(self.lines) if head.match(it)), None)
        if begin is None:
            return None
        end = begin + 1
        while end < len(self.lines) and re.match(r"    |\s*$", self.lines[end]):
            end += 1
        place = Place(self.place.path, f"{self.place.name}.{name}")
        return Definition(place, self.line + begin, self.lines[begin:end])


@dataclass
class File:
    """A file of definitions, in their order and by name; a constructor has that of its type."""

    path: str
    lines: list[str]
    order: list[Definition] = field(default_factory=list)
    items: dict[str, Definition] = field(default_factory=dict)

    def add(self, name: str, start: int, end: int) -> None:
        """Takes up the definition in these lines, from `start` up to `end`."""
        while end > start and not self.lines[end - 1].strip():
            end -= 1
        made = Definition(Place(self.path, name), start + 1, self.lines[start:end])
        self.order.append(made)
        for word in (name, *made.made()):
            self.items.setdefault(word, made)


@dataclass
class Function:
    """A function, with the lines of its head, and its clauses by name; one without a name has that
    of its kind."""

    crate: str
    path: str
    name: str
    line: int
    lines: list[str]
    clauses: dict[str, str]

    @property
    def is_public(self) -> bool:
        return any(re.match(r"\s*pub fn ", line) for line in self.lines)


def is_comment(line: str) -> bool:
    """Whether a line is a comment or an attribute."""
    return line.lstrip().startswith(("--", "//", "#["))


def starts_of(lines: list[str], head: re.Pattern[str]) -> Iterator[tuple[int, int, str]]:
    """Where each definition begins with its comment, the line of its head, and its name."""
    for at, line in enumerate(lines):
        found = head.match(line)
        start = at
        while found and start and is_comment(lines[start - 1]):
            start -= 1
        if found:
            yield start, at, found[1]


def read_definitions(path: str, lines: list[str]) -> File:
    """A file of specs: a definition goes up to where the next one begins."""
    made = File(path, lines)
    heads = list(starts_of(lines, DEFINED))
    ends = [start for start, _, _ in heads[1:]] + [len(lines)]
    for (start, _, name), end in zip(heads, ends):
        made.add(name, start, end)
    return made


def read_types(path: str, lines: list[str]) -> File:
    """A file of code: each type and constant up to the line at the margin that closes it."""
    made = File(path, lines)
    for start, at, name in starts_of(lines, TYPE):
        end = at + 1
        if not re.search(r"[;}]\s*$", lines[at]):
            end = next((it for it in range(end, len(lines)) if lines[it][:1] in ("}", ")")), at) + 1
        made.add(name, start, end)
    return made


def clauses_of(lines: list[str]) -> dict[str, str]:
    """The clauses of a head, by name."""
    clauses: dict[str, str] = {}
    text = "\n".join(re.sub(r"(^|\s)//.*", "", line) for line in lines)
    for it in CLAUSE.finditer(text):
        depth, end = 1, it.end()
        while depth and end < len(text):
            depth += {"{": 1, "}": -1}.get(text[end], 0)
            end += 1
        name = it[2] or it[1]
        clauses[name] = clauses.get(name, "") + "\n" + text[it.end():end - 1]
    return clauses


def functions_of(crate: str, path: str, lines: list[str]) -> Iterator[Function]:
    """The functions of a file; a head goes up to the brace of its body, or to an empty line."""
    for start, at, name in starts_of(lines, FUNCTION):
        indent = re.match(r"\s*", lines[at])[0]
        last = re.compile(indent + r"(\{\}?$|\).*[{;]$|$)")
        end = at + 1
        if not re.search(r"[{};]$", lines[at]):
            end = next((it for it in range(end, len(lines)) if last.match(lines[it])), len(lines))
        clauses = clauses_of(lines[at:end])
        yield Function(crate, path, name, start + 1, lines[start:end], clauses)


class Sources:
    """All definitions and functions of the repository, and what reaches what. `lost` tells each
    import so far that leads to no definition."""

    def __init__(self, top: Path = TOP) -> None:
        self.top = top
        self.files: dict[str, File] = {}
        self.functions: list[Function] = []
        self.lost: list[str] = []
        self._scopes: dict[str, dict[str, Place]] = {}
        for path in sorted(top.glob("crates/*/specs/*.antt")):
            self._take(path, read_definitions)
        for path in sorted(top.glob("crates/*/src/*.rt")):
            made = self._take(path, read_types)
            self.functions += functions_of(path.parts[-3], made.path, made.lines)

    def _take(self, path: Path, read: Callable[[str, list[str]], File]) -> File:
        name = str(path.relative_to(self.top))
        self.files[name] = read(name, path.read_text(encoding="utf-8").split("\n"))
        return self.files[name]

    def _module(self, module: str) -> tuple[str, str] | None:
        """The file that an import names, and the type of it or nothing; none of the toolchain's."""
        parts = module.split(".")
        if parts[0] != "Rattle" or len(parts) < 4 or not (self.top / "crates" / parts[1]).is_dir():
            return None
        if parts[2:4] == ["specs", "contracts"]:
            return None
        if parts[2:4] != ["specs", "declared"]:
            return f"crates/{parts[1]}/specs/{'/'.join(parts[3:])}.antt", ""
        names = [it for it in parts[4:] if it[:1].islower()]
        types = [it for it in parts[4:] if it[:1].isupper() and not it.startswith("The")]
        owner = types[0] if types else ""
        if not names:
            return self._file_of(f"crates/{parts[1]}/src/", owner), owner
        return f"crates/{parts[1]}/src/{'/'.join(names)}.rt", owner

    def _file_of(self, folder: str, name: str) -> str:
        """The file in a folder that defines a type."""
        files = (file for path, file in self.files.items() if path.startswith(folder))
        return next((file.path for file in files if name in file.items), folder)

    def place(self, path: str, name: str, owner: str) -> Place | None:
        """Where a name of a file is defined; that of its type, for a variant or a constructor."""
        file = self.files.get(path)
        if not file:
            return None
        words = [owner, name] if owner else [name, name.rstrip("'")]
        found = next((file.items[it] for it in words if it in file.items), None)
        hands_on = any(it.startswith("pub use") for it in file.lines)
        return found.place if found else self.scope(path).get(name) if hands_on else None

    def scope(self, path: str) -> dict[str, Place]:
        """What each name means in a file, by its imports and what it defines. The alias of a file
        ends with a dot."""
        if path in self._scopes:
            return self._scopes[path]
        made = self._scopes[path] = {}
        text = "\n".join(line for line in self.files[path].lines if not is_comment(line))
        for line in USE.findall(text):
            it = IMPORT.match(re.sub(r"\s+", " ", line))
            target = self._module(it[1]) if it else None
            if it and target:
                self._bring(path, it, *target)
        for name, item in self.files[path].items.items():
            made[name.replace("◌", "")] = item.place
        return made

    def _bring(self, into: str, it: re.Match[str], path: str, owner: str) -> None:
        """Takes up what one import brings into a file, from the file of this path."""
        scope = self._scopes[into]
        if it[3] and path in self.files:
            scope[it[3] + "."] = Place(path, owner)
        elif it[3]:
            self.lost.append(f"{into}: nothing is {it[1]}")
        for word in it[2].split(",") if it[2] else []:
            name, _, alias = word.strip().partition(" as ")
            place = self.place(path, name, owner)
            if place:
                scope[(alias or name).replace("◌", "")] = place
            else:
                self.lost.append(f"{into}: nothing is {it[1]}.{name}")

    def meant(self, path: str, word: str) -> list[Place]:
        """The definitions that a word of a file names; an arrow of a block stands for `>>=`."""
        scope, word = self.scope(path), ">>=" if word == "←" else word
        first, _, rest = word.partition(".")
        alias = scope.get(first + ".")
        found = [scope.get(it) for it in (word, first, first.rstrip("'"))]
        if rest and alias:
            found.append(self.place(alias.path, rest.split(".")[0], alias.name))
        return [it for it in found if it]

    def named(self, path: str, code: str) -> list[Place]:
        """The definitions that a text of a file names, each once, as it first names them."""
        meant = (it for word in WORDS.findall(code) for it in self.meant(path, word))
        return list(dict.fromkeys(meant))

    def bounds(self, call: Function) -> list[Place]:
        """The traits of the type parameters of a call, from the crates that its file uses."""
        crates = re.findall(r"^use (\w+)::", "\n".join(self.files[call.path].lines), re.M)
        folders = tuple(f"crates/{crate}/src/" for crate in crates)
        head = "\n".join(line for line in call.lines if not is_comment(line)).partition("(")[0]
        found = [file.items.get(name) for name in re.findall(r"\w+: (\w+)", head)
                 for path, file in self.files.items() if path.startswith(folders)]
        return [it.place for it in found if it and "trait " in it.code]

    def definition(self, place: Place) -> Definition:
        return self.files[place.path].items[place.name]

    def reached(self, seeds: list[Place]) -> set[Place]:
        """What these definitions reach, themselves among it."""
        seen, left = set(seeds), list(seeds)
        while left:
            place = left.pop()
            further = set(self.named(place.path, self.definition(place).code)) - seen
            seen |= further
            left += further
        return seen

    def in_reading_order(self, places: set[Place], seeds: list[Place]) -> list[str]:
        """The files of definitions, each behind all that name something of it; where that leaves a
        choice, what is named first comes first."""
        uses: dict[str, list[str]] = {it.path: [] for it in places}
        for path in uses:
            for item in self.files[path].order:
                if item.place in places:
                    uses[path] += [it.path for it in self.named(path, item.code) if it.path != path]
        order: dict[str, bool] = {}

        def visit(path: str) -> None:
            if path not in order and path not in begun:
                begun.add(path)
                for other in reversed(uses[path]):
                    visit(other)
                order[path] = True

        begun: set[str] = set()
        for it in reversed(seeds):
            visit(it.path)
        return list(order)[::-1]


@dataclass
class Book:
    """A call, those of its clauses that were asked for, and what they reach; `part` is the field of
    a record, if only that was asked for."""

    sources: Sources
    call: Function
    clauses: dict[str, str]
    part: Definition | None
    seeds: list[Place]

    @cached_property
    def places(self) -> set[Place]:
        return self.sources.reached(self.seeds)

    @cached_property
    def order(self) -> list[str]:
        return self.sources.in_reading_order(self.places, self.seeds)

    def definitions(self, path: str) -> list[Definition]:
        """The definitions of a file that are reached, in its order."""
        return [it for it in self.sources.files[path].order if it.place in self.places]

    def size(self) -> str:
        """How much there is to read."""
        lines = sum(len(self.sources.definition(it).lines) for it in self.places)
        return f"{lines} lines, {len(self.places)} definitions in {len(self.order)} files"


def owner_of(sources: Sources, call: Function) -> str:
    """The type or the trait that a method is of, or nothing."""
    before = sources.files[call.path].lines[:call.line]
    heads = [it for it in before if re.match(r"impl\b|(pub )?trait |\}", it)]
    it = re.match(r"(?:impl(?:<[^>]*>)?|(?:pub )?trait)\s+(?:\S+ for )?(\w+)", "".join(heads[-1:]))
    return it[1] if it else ""


def call_of(sources: Sources, name: str) -> Function:
    """The public call of this name: CRATE::CALL, or with its file or type between these."""
    crate, _, rest = name.partition("::")
    *between, last = rest.split("::")
    found = [it for it in sources.functions
             if it.crate == crate and it.name == last and it.is_public and it.clauses
             and set(between) <= {Path(it.path).stem, owner_of(sources, it)}]
    if len(found) != 1:
        places = "".join(f", {it.path}:{it.line}" for it in found)
        raise Fault(f"{len(found)} public calls with clauses are {name}{places}")
    return found[0]


def book_of(
    sources: Sources, name: str, clause: str | None = None, part: str | None = None
) -> Book:
    """What a call says; or one clause of it, or one field of the record that this clause asks."""
    call = call_of(sources, name)
    if clause and clause not in call.clauses:
        raise Fault(f"{name} has the clauses {', '.join(call.clauses)}, and not {clause}")
    clauses = {clause: call.clauses[clause]} if clause else call.clauses
    seeds = sources.named(call.path, "\n".join(clauses.values()))
    if not part:
        return Book(sources, call, clauses, None, seeds + sources.bounds(call))
    parts = [it for seed in seeds for it in [sources.definition(seed).part(part)] if it]
    if len(parts) != 1:
        raise Fault(f"{len(parts)} records that {name} asks in {clause} have a field {part}")
    return Book(sources, call, clauses, parts[0], sources.named(parts[0].place.path, parts[0].code))
