"""Completion by what may stand at a place: words, and names of the sets that may stand there."""

from __future__ import annotations

import re

from ..texts.names import NameSet
from .documents import Document
from .protocol import Json

KEYWORD, VARIABLE, OPERATOR = 14, 6, 24
WORD_BEFORE = re.compile(r"[A-Za-z_][A-Za-z0-9_]*\Z")
DETAILS = (
    {kind.plural: kind.value for kind in NameSet}
    | {"numbers": "number", "flags": "flag", "bound names": "bound name"}
)


def items(document: Document, at: int) -> list[Json]:
    """What may be written at a place, behind what is written of the word there."""
    text = document.reading.text
    line = text[text.rfind("\n", 0, at) + 1 : at]
    if "#" in line:
        return []
    begun = WORD_BEFORE.search(line)
    offers = document.reading.offers_at(at - len(begun[0]) if begun else at)
    found = [{"label": word, "kind": KEYWORD} for word in offers.words]
    for kind, names in offers.names.items():
        found += [
            {"label": name, "kind": VARIABLE, "detail": DETAILS.get(kind, kind)} for name in names
        ]
    if not begun:
        found += [
            {"label": mark, "kind": OPERATOR} for mark in offers.marks if mark not in ("(", "-")
        ]
    return found
