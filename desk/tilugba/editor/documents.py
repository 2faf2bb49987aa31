"""Open texts and places in them. A place is a byte of the text here, and a line with a count of
UTF-16 units in the protocol.
"""

from __future__ import annotations

import re
from bisect import bisect_right
from dataclasses import dataclass, field
from functools import cached_property

from ..program import Answer
from ..texts.reading import Memory, Reading
from .protocol import Json

# The protocol ends a line at a carriage return too.
LINE_END = re.compile(rb"\r\n?|\n")


def units(part: bytes) -> int:
    """The UTF-16 units of a part of a text."""
    if part.isascii():
        return len(part)
    return len(part.decode("utf-8", "replace").encode("utf-16-le")) // 2


def bytes_of_units(line: bytes, count: int) -> int:
    """The bytes of so many UTF-16 units of a line, or of the whole line if it has fewer."""
    if line.isascii():
        return min(count, len(line))
    encoded = line.decode("utf-8", "replace").encode("utf-16-le")[: 2 * count]
    return len(encoded.decode("utf-16-le", "ignore").encode("utf-8"))


@dataclass
class Document:
    """A text as the editor has it, and what was read of it."""

    uri: str
    data: bytes
    version: int = 0
    memory: Memory = field(default_factory=Memory)
    # What `check` said of this text, if it was asked.
    checked: Answer | None = None

    @cached_property
    def reading(self) -> Reading:
        return Reading(self.data, memory=self.memory)

    @cached_property
    def starts(self) -> list[int]:
        """Where each line begins, as the protocol counts lines."""
        return [0, *(found.end() for found in LINE_END.finditer(self.data))]

    def changed(self, version: int, changes: list[Json]) -> Document:
        """The text after changes. What was read of statements that stay is kept."""
        document = self
        for change in changes:
            data = change["text"].encode("utf-8", "replace")
            if "range" in change:
                start, end = (document.at(change["range"][it]) for it in ("start", "end"))
                data = document.data[:start] + data + document.data[max(start, end) :]
            document = Document(self.uri, data, version, self.memory)
        return document

    def line_end(self, line: int) -> int:
        """Where a line ends, without its line end."""
        end = self.starts[line + 1] if line + 1 < len(self.starts) else len(self.data)
        return self.starts[line] + len(self.data[self.starts[line] : end].rstrip(b"\r\n"))

    def at(self, position: Json) -> int:
        """The byte of a position."""
        line = position["line"]
        if line >= len(self.starts):
            return len(self.data)
        start = self.starts[max(line, 0)]
        return (
            start
            + bytes_of_units(
                self.data[start : self.line_end(max(line, 0))], max(position["character"], 0)
            )
        )

    def position(self, at: int) -> Json:
        """The position of a byte."""
        line = bisect_right(self.starts, at) - 1
        return {"line": line, "character": units(self.data[self.starts[line] : at])}

    def range(self, at: int, end: int) -> Json:
        return {"start": self.position(at), "end": self.position(end)}
