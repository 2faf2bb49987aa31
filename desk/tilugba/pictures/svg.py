"""Elements of SVG as text."""

from __future__ import annotations

from collections.abc import Iterable
from html import escape

FONT = "font-family='DejaVu Sans, Verdana, Arial, sans-serif'"


def element(name: str, *inside: str, **attributes: object) -> str:
    """An element. An attribute is named with `_` for `-`, and with one at its end if Python has
    the word.
    """
    told = "".join(
        f' {key.rstrip("_").replace("_", "-")}="{escape(shown(value))}"'
        for key, value in attributes.items()
    )
    return f"<{name}{told}>{''.join(inside)}</{name}>" if inside else f"<{name}{told}/>"


def shown(value: object) -> str:
    """A number with at most two decimals, which is less than can be seen."""
    return f"{value:.2f}".rstrip("0").rstrip(".") if isinstance(value, float) else str(value)


def text(x: float, y: float, said: str, **attributes: object) -> str:
    return element("text", escape(said), x=float(x), y=float(y), **attributes)


def document(width: int, height: int, inside: Iterable[str], title: str) -> str:
    """A whole picture, which takes the width that it gets."""
    head = (
        f'<svg xmlns="http://www.w3.org/2000/svg" viewBox="0 0 {width} {height}" role="img" '
        f'{FONT} font-size="12">'
    )
    ground = element("rect", width=width, height=height, fill="white")
    return "\n".join([head, element("title", escape(title)), ground, *inside, "</svg>"]) + "\n"
