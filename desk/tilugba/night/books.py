"""The words of a night run, and its books. No result takes the place of another one, or of a file
that is read.
"""

from __future__ import annotations

import os
import re
from collections.abc import Sequence
from dataclasses import dataclass

from ..command_line import FLAG, FORMS
from ..program import Status, Stop

PLACE = "{}"
# What a night run keeps for itself in the folder of the results, and the end of the name of a
# fault.
OWN, FAULT = ".night-run", ".fault"
LONGEST_NAME = 255
# The options, with their dashes, behind which a word belongs to them.
WITH_VALUE = frozenset(
    option for form in FORMS.values() for option, kind in form.options.items() if kind != FLAG
)


def refused(message: str) -> Stop:
    """Why nothing is run."""
    return Stop(Status.DESK, message)


@dataclass(frozen=True)
class Book:
    """A book of the run: its name among the results, its words for the program, and those of them
    that name files, by their places.
    """

    path: str
    name: str
    words: tuple[str, ...]
    files: dict[int, str]

    def has_special_file(self) -> bool:
        """Whether a file is neither plain nor a folder, like a pipe, on which a run might wait for
        ever.
        """
        return any(
            os.path.exists(it) and not os.path.isfile(it) and not os.path.isdir(it)
            for it in self.files.values()
        )


def places_of_files(words: Sequence[str]) -> list[int]:
    """The places of those words that name files: the first of them that belong to no option."""
    taking = {name: form for name, form in FORMS.items() if form.takes_files}
    if words[0] not in taking:
        raise refused(f"the first word is one of {', '.join(taking)}")
    places: list[int] = []
    is_value = False
    for place, word in enumerate(words[1:], 1):
        if is_value or word in WITH_VALUE:
            is_value = not is_value
        elif not word.startswith("-") and len(places) < len(taking[words[0]].files):
            places.append(place)
    if not any(PLACE in words[place] for place in places):
        raise refused(f"no file of the command is {PLACE}")
    return places


def book_of(path: str, words: Sequence[str], places: Sequence[int]) -> Book:
    """The book of a path."""
    told = [word.replace(PLACE, path) for word in words]
    for place in places:
        # No file is taken for an option.
        if told[place].startswith("-"):
            told[place] = "./" + told[place]
    return Book(path, os.path.basename(path), tuple(told), {place: told[place] for place in places})


def books_of(paths: Sequence[str], words: Sequence[str], out: str) -> list[Book]:
    """The books of a run, which each have a name for themselves."""
    places = places_of_files(words)
    books = [book_of(path, words, places) for path in paths]
    names = set[str]()
    for book in books:
        if (
            book.name in ("", ".", "..", OWN)
            or book.name.endswith(FAULT)
            or len(os.fsencode(book.name + FAULT)) > LONGEST_NAME
        ):
            raise refused(f"no result can have the name of {shown(book.path)}")
        if book.name in names:
            raise refused(f"two books have the name {shown(book.name)}")
        names.add(book.name)
    written = {
        os.path.join(os.path.realpath(out), name + end) for name in names for end in ("", FAULT)
    }
    for file in sorted({file for book in books for file in book.files.values()}):
        if os.path.realpath(file) in written:
            raise refused(f"a result would take the place of {shown(file)}")
    return books


def shown(name: str) -> str:
    """A name as a word of the shell, on one line."""
    if re.fullmatch(r"[\w./+=:@%,-]+", name):
        return name
    bad = [it for it in name if not it.isprintable() or it in "'\\"]
    if not bad:
        return f"'{name}'"
    escapes = {it: "".join(f"\\x{byte:02x}" for byte in os.fsencode(it)) for it in bad}
    return "$'" + "".join(escapes.get(it, it) for it in name) + "'"
