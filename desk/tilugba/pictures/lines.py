"""Pictures of several panels, below each other."""

from __future__ import annotations

from collections.abc import Sequence

from .panel import COLOURS, WIDTH, Panel, Series
from .svg import document

EACH = "*"


def picture(panels: Sequence[Panel], title: str) -> str:
    """The panels as one picture."""
    parts: list[str] = []
    top = 0
    for panel in panels:
        parts += panel.drawn(top)
        top += panel.height
    return document(WIDTH, max(top, 1), parts, title)


def picture_of_exposure(rows: Sequence[Sequence[str]], holder: str | None) -> str:
    """The table of `exposure`: a panel for each asset, a line for each party; of a set the
    greatest is dashed.
    """
    return picture(panels_of_exposure(rows, holder), title_of(holder))


def title_of(holder: str | None) -> str:
    return f"What {holder or 'the others'} would lose if a party failed"


def panels_of_exposure(rows: Sequence[Sequence[str]], holder: str | None) -> list[Panel]:
    header, days = rows[0], [row for row in rows[1:] if row[0] != EACH]
    columns = [(3, False)] if len(header) == 4 else [(3, False), (4, True)]
    parties = list(dict.fromkeys(row[1] for row in days))
    panels = []
    for asset in dict.fromkeys(row[2] for row in days):
        series = []
        for number, party in enumerate(parties):
            those = [row for row in days if row[1:3] == [party, asset]]
            for column, is_dashed in columns:
                name = f"{party}, {header[column]}" if len(columns) > 1 else party
                values = [float(row[column]) for row in those]
                series.append(Series(name, values, COLOURS[number % len(COLOURS)], is_dashed))
        names = list(dict.fromkeys(row[0] for row in days))
        panels.append(Panel(f"{title_of(holder)}, {asset}", names, series))
    return panels
