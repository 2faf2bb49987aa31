"""Elements of a page as text. What is put into them is escaped."""

from __future__ import annotations

from collections.abc import Iterable, Sequence
from html import escape


def tag(name: str, *inside: str, **attributes: str) -> str:
    """An element around what is HTML already."""
    told = "".join(f' {key.rstrip("_")}="{escape(value)}"' for key, value in attributes.items())
    return f"<{name}{told}>{''.join(inside)}</{name}>"


def said(name: str, text: str, **attributes: str) -> str:
    """An element around a text."""
    return tag(name, escape(text), **attributes)


def table(
    header: Sequence[str], rows: Iterable[Sequence[str]], numbers: int = 0, caption: str = ""
) -> str:
    """A table. Of each row the last so many cells are numbers, which stand on the right."""
    first = len(header) - numbers
    head = tag(
        "tr",
        *(
            said("th", it, class_="n" if at >= first else "t", scope="col")
            for at, it in enumerate(header)
        ),
    )
    body = [
        tag(
            "tr", *(said("td", it, class_="n" if at >= first else "t") for at, it in enumerate(row))
        )
        for row in rows
    ]
    told = said("caption", caption) if caption else ""
    inside = tag("table", told, tag("thead", head), tag("tbody", *body))
    return tag("div", inside, class_="wide")


def section(title: str, *parts: str) -> str:
    """A part of the page under a heading."""
    return tag("section", said("h2", title), *parts)
