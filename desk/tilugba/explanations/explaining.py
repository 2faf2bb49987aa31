"""Explains a run that did not end with 0: by its cause, to the module that knows it, which is
loaded then.
"""

from __future__ import annotations

import os
from collections.abc import Iterator, Sequence
from functools import cached_property
from pathlib import Path
from typing import TYPE_CHECKING

from .. import command_line
from ..command_line import BOOK, CODE_FILE, FIX, GRAMMARS, PLANS, SCEN, Words
from ..days import Calendar, day_of
from ..program import (
    GREATEST_FILE,
    Answer,
    BadDay,
    BadRow,
    BadText,
    LongFile,
    MissingFixing,
    Program,
    Refusal,
    Status,
    TooManyScenarios,
    UnknownName,
    UnreadFile,
)
from ..files import read_file
from ..texts.grammar import Grammar
from ..texts.names import NameSet
from ..texts.reading import Reading
from .notes import Note

if TYPE_CHECKING:
    from ..desk import Desk
    from .rows import Table

LAST_DAY, LAST_NEW_DAY = 1_100_000, 1_000_000


class Run:
    """A run that is explained: the words, the program, its answer, and the bytes of files that
    cannot be read twice.
    """

    def __init__(
        self,
        words: Sequence[str],
        program: Program,
        answer: Answer,
        kept: dict[str, bytes] | None = None,
    ) -> None:
        self.words = words
        self.program = program
        self.answer = answer
        self.kept = {} if kept is None else kept

    @cached_property
    def asked(self) -> Words:
        return command_line.read(self.words)

    def data(self, name: str) -> bytes:
        """The bytes of a file."""
        if name not in self.kept:
            self.kept[name] = read_file(name)
        return self.kept[name]

    @property
    def text_role(self) -> str:
        return next(
            (role for role in (BOOK, CODE_FILE, PLANS) if role in self.asked.form.files), BOOK
        )

    @property
    def text_file(self) -> str:
        return self.asked.file(self.text_role) or ""

    @property
    def grammar(self) -> Grammar:
        return GRAMMARS[self.text_role]

    @cached_property
    def reading(self) -> Reading:
        return Reading(self.data(self.text_file), self.grammar)


def notes_of(run: Run) -> Iterator[Note]:
    """The explanations of a run, one for each contract that `check` refuses, and else one."""
    fault = run.answer.fault
    if fault is None:
        return
    if run.answer.status == Status.USAGE:
        yield usage_note(run)
        return
    if run.answer.status == Status.REFUSED and fault.cause is None:
        for verdict in run.answer.verdicts():
            if isinstance(verdict, Refusal):
                yield refused_note(run, verdict)
        return
    match fault.cause:
        case BadText() as cause:
            yield text_note(run, cause)
        case Refusal() as cause:
            yield refused_note(run, cause)
        case BadRow() as cause:
            yield row_note(run, cause)
        case MissingFixing() as cause:
            yield missing_note(run, cause)
        case UnreadFile(place) | LongFile(place):
            yield file_note(run.asked.files[place - 1], run.answer.status)
        case UnknownName(name):
            yield unknown_note(run, name)
        case BadDay(word):
            yield day_note(run, word)
        case TooManyScenarios(count):
            yield scenarios_note(run, count)
        case _:
            yield Note("tilugba", fault.message)


def lines_of(
    words: Sequence[str], program: Program, answer: Answer, kept: dict[str, bytes]
) -> list[str]:
    """The lines of the explanation of a run on files of which the bytes are kept."""
    return [line for note in notes_of(Run(words, program, answer, kept)) for line in note.told()]


def tell_fault(desk: Desk, words: Sequence[str], answer: Answer, kept: dict[str, bytes]) -> int:
    """Tells the fault of a run of a subcommand on standard error, as `explain` does, and returns
    its status.
    """
    desk.tell(lines_of(words, desk.program, answer, kept))
    return answer.status


def usage_note(run: Run) -> Note:
    from . import usage

    return usage.note_of(run.words)


def text_note(run: Run, cause: BadText) -> Note:
    from . import text_faults

    return text_faults.note_of(run.text_file, run.reading, cause)


def refused_note(run: Run, refusal: Refusal) -> Note:
    from . import refusals

    return refusals.note_of(run.text_file, run.reading, refusal, run.asked.settings)


def table_of(run: Run, place: int) -> Table:
    from .rows import Table

    name = run.asked.files[place - 1]
    role = run.asked.form.files[place - 1]
    return Table(name, role, run.text_file, run.data(name), run.reading.declared)


def row_note(run: Run, cause: BadRow) -> Note:
    from . import rows

    return rows.note_of(table_of(run, cause.place), cause)


def missing_note(run: Run, cause: MissingFixing) -> Note:
    from . import missing, rows

    fixings = run.asked.file(FIX)
    until = run.asked.options.get("--until")
    behind = [run.data(fixings)] if fixings else []
    options = ["--until", until] if until else []
    if run.asked.command in ("advance", "novate"):
        options = until_before(run)
    asked = missing.Asked(
        run.text_file, run.reading, (*behind, *options), are_contracts=run.text_role == BOOK
    )
    tables = [
        place
        for place, role in enumerate(run.asked.form.files[: len(run.asked.files)], 1)
        if role in (FIX, SCEN)
    ]
    calendar = Calendar(run.reading.declared.origin)
    cures = [rows.serial_date(table_of(run, place), cause.label, calendar) for place in tables]
    return missing.note_of(asked, cause, run.program, cures)


def until_before(run: Run) -> list[str]:
    """The last day that an advance asks for, which is that before the new one."""
    day = day_of(run.asked.options["--to"])
    number = Calendar(run.reading.declared.origin).number(day) if day else None
    return (
        ["--until", str(number - 1)]
        if number is not None and number > run.reading.declared.start
        else []
    )


def file_note(name: str, status: int) -> Note:
    if status == Status.TOO_LONG:
        return Note(name, f"the file has more than {GREATEST_FILE:,} bytes: split it")
    path = Path(name)
    if path.is_dir():
        return Note(name, "it is a folder")
    if not path.exists():
        near = command_line.nearest(path.name, siblings(path))
        return Note(name, "there is no such file" + (f"; perhaps {near}" if near else ""))
    return Note(name, "it may not be read" if not os.access(path, os.R_OK) else "the read failed")


def siblings(path: Path) -> list[str]:
    try:
        return sorted(it.name for it in path.absolute().parent.iterdir())
    except OSError:
        return []


def unknown_note(run: Run, name: str) -> Note:
    """A name of the command line: what it would have to be, and which there are."""
    kinds = {
        "--contract": NameSet.CONTRACT,
        "--from": NameSet.PARTY,
        "--to": NameSet.PARTY,
        "--asset": NameSet.ASSET,
    }
    kinds |= {"--old": NameSet.PARTY, "--new": NameSet.PARTY}
    option = next(
        (it for it, value in run.asked.options.items() if value == name and it in kinds), None
    )
    kind = kinds[option] if option else NameSet.TEMPLATE
    known = list(
        run.reading.defined if kind is NameSet.CONTRACT else run.reading.declared.names(kind)
    )
    near = command_line.nearest(name, known)
    said = (
        f"there is no {kind.value} {name}; {kind.plural}: "
        f"{', '.join(known[:12])}{' and others' if len(known) > 12 else ''}"
    )
    said = said if known else f"there is no {kind.value}"
    return Note(run.text_file, said, lines=(f"is {near} meant?",) if near else ())


def day_note(run: Run, word: str) -> Note:
    """A day of the command line that is out of range."""
    declared = run.reading.declared
    calendar = Calendar(declared.origin)
    day = day_of(word)
    number = calendar.number(day) if day else None
    last = LAST_NEW_DAY if run.asked.command in ("advance", "novate") else LAST_DAY
    if number is None:
        return Note(
            run.text_file,
            f"{word} is a date, and the text has no origin: give it an `origin` line, or the day "
            "as a number",
        )
    first = calendar.told(declared.start)
    return Note(
        run.text_file, f"{word} is out of range: days go from the start, {first}, to day {last:,}"
    )


def scenarios_note(run: Run, count: int) -> Note:
    return Note(
        run.text_file,
        f"there are {count:,} scenarios, too many for code that may be worth so much",
        lines=(
            "split the set with tilugba-desk split-set, and join what is printed with tilugba-desk "
            "join-sets",
        ),
    )
