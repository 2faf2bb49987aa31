"""Words that no command takes: what is wrong with them, and the form of the command."""

from __future__ import annotations

from collections.abc import Sequence

from .. import command_line
from ..command_line import FORMS, WrongWords
from .notes import Note


def note_of(words: Sequence[str]) -> Note:
    """The explanation of wrong words."""
    command = words[0] if words and words[0] in FORMS else ""
    try:
        command_line.read(words)
    except WrongWords as wrong:
        told = str(wrong)
    else:
        told = "the program does not take these words"
    if not command:
        return Note("tilugba", told)
    return Note(command, f"{told}; the command is `{FORMS[command].told()}`")
