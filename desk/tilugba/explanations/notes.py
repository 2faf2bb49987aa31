"""How an explanation is told: a line in the form of compilers, the line of the text with a caret,
and further lines below it.
"""

from __future__ import annotations

from collections.abc import Iterator
from typing import NamedTuple

from ..texts.tokens import Place, Source

# A longer line is shown in part, with so much on each side of the caret.
WIDEST, BEFORE = 120, 70


class Note(NamedTuple):
    """An explanation: where, what, the source with a place in it, and what else is said."""

    where: str
    title: str
    source: Source | None = None
    place: Place | None = None
    lines: tuple[str, ...] = ()

    def told(self) -> Iterator[str]:
        """The lines of the explanation. The first has the form `FILE:LINE:COLUMN: TITLE`, by which
        editors jump.
        """
        place = f":{self.place.line}:{self.place.column}" if self.place else ""
        yield f"{self.where}{place}: {self.title}"
        if self.source and self.place:
            yield from shown(self.source, self.place)
        for line in self.lines:
            yield f"      = {line}"


def shown(source: Source, place: Place) -> Iterator[str]:
    """The line of a place, and a caret below the place."""
    line = source.line(place.line) if place.line <= len(source.starts) else b""
    at = min(place.column - 1, len(line))
    # A character has at most four bytes, and one of which a part is cut off is not shown in any
    # case.
    before, behind = displayed(line[max(at - 4 * WIDEST, 0) : at]), displayed(
        line[at : at + 4 * WIDEST]
    )
    if len(before) > BEFORE and len(before) + len(behind) > WIDEST:
        before = "..." + before[len(before) - BEFORE :]
    if len(before) + len(behind) > WIDEST:
        behind = behind[: WIDEST - len(before)] + "..."
    yield f"{place.line:5} | {before}{behind}"
    yield f"      | {' ' * len(before)}^"


def displayed(part: bytes) -> str:
    """Bytes as they are shown: a blank for a tab, and a mark for what cannot be shown."""
    text = part.decode("utf-8", "replace").replace("\t", " ")
    return "".join(it if it.isprintable() else "\ufffd" for it in text)


def listed(words: list[str]) -> str:
    """Words with commas between them, and `and` before the last."""
    return ", ".join(words[:-1]) + " and " + words[-1] if len(words) > 1 else "".join(words)


def counted(number: int, word: str, plural: str | None = None) -> str:
    """A number and what is counted, in its plural unless it is 1."""
    return f"{number:,} {word}" if number == 1 else f"{number:,} {plural or word + 's'}"
