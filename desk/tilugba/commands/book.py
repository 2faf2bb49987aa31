"""A book from day to day: new, amended and cancelled deals, joined and split books, corrections.

Each word of it has a --help of its own. A new book is printed, and nothing is written over, except
for the folder of `keep`, which gets a step more. What the program computes it computes: what was
due, what is left, and whether a contract is accepted. What was due is printed as comments before
the text, by day and then by name. Texts keep their comments, unless the book itself is advanced.

Ends with 0; 1 if a book or a contract is refused; 3 if a file is not read; 4 if something is not
written; 6, 7, 8 and 11 for a fault of a text, a table, a fixing or a day, as the program has it; 10
if there is no contract or party of a name. `diff` ends with 1 if there is a difference.
"""

from __future__ import annotations

import argparse

from ..books.book import Told
from ..books.change_words import CHANGES
from ..books.keep_words import KEEPING
from ..books.words import add_words
from ..desk import Desk


def configure(parser: argparse.ArgumentParser) -> None:
    add_words(parser, "WORD", CHANGES | KEEPING)


def run(arguments: argparse.Namespace, desk: Desk) -> int:
    desk.name = f"book {arguments.word}"
    try:
        return arguments.run_word(arguments, desk)
    except Told as told:
        desk.tell(told.lines)
        return told.status
