"""A frame with scales, in which a table is drawn: lines in steps over days, or bars beside each
other.
"""

from __future__ import annotations

from collections.abc import Iterator, Sequence
from dataclasses import dataclass

from .scale import Scale, short, ticks
from .svg import element, text

# Colours that people tell apart who see few (Okabe and Ito, Color Universal Design, 2008).
COLOURS = ("#0072B2", "#D55E00", "#009E73", "#CC79A7", "#E69F00", "#56B4E9", "#000000", "#8C6D31")
WIDTH, LEFT, RIGHT = 900, 96, 16
HEAD, FOOT, PLOT = 34, 34, 210
HEIGHT = HEAD + PLOT + FOOT
GREY, PALE = "#555555", "#D8D8D8"
MOST_NAMES = 9
LEGEND_LINE, LETTER = 18, 7.2


@dataclass(frozen=True)
class Series:
    """A name and a number for each place on the lower side."""

    name: str
    values: Sequence[float]
    colour: str
    is_dashed: bool = False


@dataclass(frozen=True)
class Panel:
    """What stands above the frame, the names on the lower side, what is drawn, and whether as
    bars.
    """

    title: str
    names: Sequence[str]
    series: Sequence[Series]
    has_bars: bool = False

    @property
    def legend(self) -> list[list[Series]]:
        """The names of the series in lines; a single one needs none."""
        lines: list[list[Series]] = [[]]
        width = 0.0
        for it in self.series if len(self.series) > 1 else ():
            needed = 44 + LETTER * len(it.name)
            if lines[-1] and width + needed > WIDTH - LEFT - RIGHT:
                lines.append([])
                width = 0.0
            lines[-1].append(it)
            width += needed
        return [line for line in lines if line]

    @property
    def height(self) -> int:
        return HEIGHT + LEGEND_LINE * len(self.legend)

    def drawn(self, top: int) -> Iterator[str]:
        """The elements, from a height on."""
        yield text(LEFT, top + 20, self.title, font_size=14, font_weight="bold")
        yield from self.names_of_series(top + HEAD)
        first = top + HEAD + LEGEND_LINE * len(self.legend)
        marks = ticks([value for it in self.series for value in it.values])
        up = Scale(marks[0], marks[-1], float(first + PLOT), float(first))
        yield from self.marks(marks, up)
        yield from self.below(float(first + PLOT))
        for number, it in enumerate(self.series):
            yield from self.bars(number, it, up) if self.has_bars else self.steps(it, up)

    def names_of_series(self, top: float) -> Iterator[str]:
        for line, those in enumerate(self.legend):
            x = float(LEFT)
            for it in those:
                y = top + LEGEND_LINE * line + 6
                dash = {"stroke_dasharray": "5 3"} if it.is_dashed else {}
                yield element(
                    "line", x1=x, y1=y, x2=x + 20, y2=y, stroke=it.colour, stroke_width=3, **dash
                )
                yield text(x + 25, y + 4, it.name, fill=GREY)
                x += 44 + LETTER * len(it.name)

    def marks(self, marks: Sequence[float], up: Scale) -> Iterator[str]:
        for mark in marks:
            y = up.at(mark)
            colour = GREY if mark == 0 else PALE
            yield element("line", x1=LEFT, y1=y, x2=WIDTH - RIGHT, y2=y, stroke=colour)
            yield text(LEFT - 8, y + 4, short(mark), text_anchor="end", fill=GREY)

    @property
    def pitch(self) -> float:
        """How wide the place of a name is."""
        return (WIDTH - LEFT - RIGHT) / max(len(self.names), 1)

    def below(self, y: float) -> Iterator[str]:
        """Some of the names, so that none covers another."""
        every = -(-len(self.names) // MOST_NAMES)
        for place in range(0, len(self.names), max(every, 1)):
            x = LEFT + self.pitch * (place + 0.5 if self.has_bars else place)
            yield element("line", x1=x, y1=y, x2=x, y2=y + 5, stroke=GREY)
            anchor = "middle" if self.has_bars else "start"
            yield text(x, y + 18, self.names[place], text_anchor=anchor, fill=GREY)

    def steps(self, it: Series, up: Scale) -> Iterator[str]:
        """A line that keeps its height until the next name."""
        points = []
        for place, value in enumerate(it.values):
            y = up.at(value)
            points += [(LEFT + self.pitch * place, y), (LEFT + self.pitch * (place + 1), y)]
        told = " ".join(f"{x:.1f},{y:.1f}" for x, y in points)
        dash = {"stroke_dasharray": "5 3"} if it.is_dashed else {}
        yield element(
            "polyline", points=told, fill="none", stroke=it.colour, stroke_width=2, **dash
        )

    def bars(self, number: int, it: Series, up: Scale) -> Iterator[str]:
        """A bar for each name, beside those of the other series."""
        width = self.pitch * 0.8 / max(len(self.series), 1)
        for place, value in enumerate(it.values):
            if value:
                x = LEFT + self.pitch * (place + 0.1) + width * number
                y, ground = up.at(max(value, 0.0)), up.at(min(value, 0.0))
                yield element("rect", x=x, y=y, width=width, height=ground - y, fill=it.colour)
