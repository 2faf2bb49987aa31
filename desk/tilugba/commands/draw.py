"""A picture of a table, as an SVG that gnuplot draws.

TABLE has a header. If its first column is `month`, each further column is a row of bars. If it is
`day`, each is a line in steps; days are all numbers or all dates. If it is `value`, as `histogram`
prints it, the bars of a step go from its beginning to the next one. TITLE is above the picture, and
is its title for browsers and screen readers; --unit names the unit of amounts on its axis. A
comment in PICTURE has the checksum of TABLE, so that it can be seen of which table it is. A picture
that has such a comment is drawn anew; any other file that is there is not written over.

Ends with 0; 3 if TABLE is not read; 4 if PICTURE is not written; 7 if TABLE is no such table; 69 if
gnuplot is not installed, and 70 if it draws nothing.
"""

from __future__ import annotations

import argparse
import hashlib
import re
import shutil
import subprocess
from dataclasses import dataclass
from pathlib import Path
from xml.sax.saxutils import escape

from ..desk import Desk
from ..files import create, read_file, replace
from ..program import Status, Stop

# The status of a service that is not there.
UNAVAILABLE = 69
HEADER = re.compile(r"(month|value|day)(?:,[A-Za-z_][A-Za-z0-9_]*)+")
NUMBER, MONTH, DATE = "-?[0-9]{1,40}", "[0-9]{4}-[0-9]{2}", "[0-9]{4}-[0-9]{2}-[0-9]{2}"
AMOUNTS = "(?:,-?[0-9]+(?:[.][0-9]+)?)+"
# What the first column of each kind of table may be, all rows alike.
FIRSTS = {"month": (f"{MONTH}|{DATE}|{NUMBER}",), "value": (NUMBER,), "day": (NUMBER, DATE)}
# The end of each picture.
MARK = b"<!-- of a table with the sha256 sum %s -->\n"
MADE = re.compile(MARK % b"[0-9a-f]{64}" + rb"\Z")
ALIKE = """set terminal svg size 900,400 font 'sans,13' background 'white' name 'picture'
set datafile separator ','
set title "%s" noenhanced
set xlabel "%s" noenhanced
set ylabel "%s" noenhanced
set grid ytics
set tics out nomirror
set xzeroaxis linetype -1
set format y '%%.%df'
set key %s
"""
BARS = """set style data histograms
set style histogram clustered gap 1
set style fill solid 0.8 noborder
set xtics rotate by 45 right (%s)
plot for [column=2:%d] '%s' using column title columnheader(column)
"""
# The bars of a step stand between its beginning and the next one.
BARS_OF_STEPS = """set style fill solid 0.8 border rgb 'white'
set boxwidth %d
set xtics rotate by 45 right
set yrange [0:*]
plot for [column=2:%d] '%s' using ($1 + %d / 2.0):column with boxes title columnheader(column)
"""
STEPS_OF_NUMBERS = """set offsets graph 0.02, graph 0.02, graph 0.05, graph 0.05
plot for [column=2:%d] '%s' using 1:column with steps linewidth 2 title columnheader(column)
"""
STEPS_OF_DATES = f"""set xdata time
set timefmt '%%Y-%%m-%%d'
set format x '%%d %%b'
{STEPS_OF_NUMBERS}"""
MONTHS = ("Jan", "Feb", "Mar", "Apr", "May", "Jun", "Jul", "Aug", "Sep", "Oct", "Nov", "Dec")
# From here on an amount needs no decimals at the side of a picture.
GREAT = 10


def configure(parser: argparse.ArgumentParser) -> None:
    parser.add_argument("table", metavar="TABLE", help="a table by month, value or day")
    parser.add_argument("picture", metavar="PICTURE", help="the file of the picture")
    parser.add_argument("title", metavar="TITLE", help="what is above it")
    parser.add_argument(
        "--unit", metavar="UNIT", default="", help="the unit of the amounts, such as EUR"
    )


def run(arguments: argparse.Namespace, desk: Desk) -> int:
    table = read_table(arguments.table)
    if not shutil.which("gnuplot"):
        raise Stop(UNAVAILABLE, "gnuplot is not installed")
    script = script_of(table, one_line(arguments.title), one_line(arguments.unit)).encode()
    drawn = subprocess.run(["gnuplot"], input=script, stdout=subprocess.PIPE, check=False)
    if drawn.returncode != 0 or b"</svg>" not in drawn.stdout:
        raise Stop(Status.DESK, "gnuplot draws nothing")
    picture = drawn.stdout.replace(
        b"<title>picture</title>", f"<title>{escape(one_line(arguments.title))}</title>".encode()
    )
    mark = MARK % hashlib.sha256(table.data).hexdigest().encode()
    put(Path(arguments.picture), picture.rstrip() + b"\n" + mark)
    return Status.DONE


def put(path: Path, picture: bytes) -> None:
    """Writes a new picture, or one in the place of an older one that was drawn here."""
    if path.is_file() and MADE.search(read_file(path)):
        replace(path, picture)
    else:
        create(path, picture)


@dataclass(frozen=True)
class Table:
    """A table that can be drawn: its bytes, and its lines with as many columns each."""

    path: str
    data: bytes
    lines: list[str]
    columns: int

    def firsts(self) -> list[str]:
        """The first column, without its name."""
        return [it.split(",")[0] for it in self.lines[1:]]


def read_table(path: str) -> Table:
    data = read_file(path)
    lines = data.decode("utf-8", "replace").splitlines()
    columns = lines[0].count(",") + 1 if lines else 0
    head = HEADER.fullmatch(lines[0]) if lines else None
    is_table = head and any(
        all(re.fullmatch(f"(?:{first}){AMOUNTS}", it) for it in lines[1:])
        for first in FIRSTS[head[1]]
    )
    is_even = all(it.count(",") + 1 == columns for it in lines)
    if not is_table or not is_even or len(lines) < 2 or "'" in path or "\n" in path:
        raise Stop(
            Status.ROW,
            f"{path}: it is no table by month, value or day, or has a ' or a line end in its name",
        )
    return Table(plain_name(path), data, lines, columns)


def plain_name(path: str) -> str:
    """A name that gnuplot takes for that of a file: behind a `<` it would run a command."""
    return path if path.startswith("/") else f"./{path}"


def one_line(text: str) -> str:
    """A text as gnuplot may have it between quotes."""
    return re.sub(r'["\\\n]', " ", text)


def script_of(table: Table, title: str, unit: str) -> str:
    """What gnuplot is told."""
    # A picture of small amounts has decimals at its side, and one line needs no name.
    decimals = (
        0
        if any(abs(float(it)) >= GREAT for line in table.lines[1:] for it in line.split(",")[1:])
        else 2
    )
    key = "outside bottom center horizontal noenhanced" if table.columns > 2 else "off"
    across, up = axes(table, unit)
    return ALIKE % (title, across, up, decimals, key) + plot_of(table)


def axes(table: Table, unit: str) -> tuple[str, str]:
    """What is told along the axes: of dates the years, which their marks leave out."""
    kind, *names = table.lines[0].split(",")
    of_unit = f" in {unit}" if unit else ""
    if kind == "value":
        return f"value{of_unit}", names[0]
    years = sorted({it[:4] for it in table.firsts() if "-" in it[1:]})
    across = (
        f"day of {' to '.join(sorted({years[0], years[-1]}))}" if years and kind == "day" else kind
    )
    return across, f"{names[0]}{of_unit}" if len(names) == 1 else unit


def plot_of(table: Table) -> str:
    kind, firsts = table.lines[0].split(",")[0], table.firsts()
    if kind == "day":
        return (STEPS_OF_DATES if "-" in firsts[0][1:] else STEPS_OF_NUMBERS) % (
            table.columns, table.path
        )
    if kind == "value" and len(firsts) > 1:
        width = int(firsts[1]) - int(firsts[0])
        return BARS_OF_STEPS % (width, table.columns, table.path, width)
    marks = ", ".join(f'"{month_name(it, at == 0)}" {at}' for at, it in enumerate(firsts))
    return BARS % (marks, table.columns, table.path)


def month_name(text: str, is_first: bool) -> str:
    """A month in words, with its year if it is the first of the picture or of the year; a value
    stays.
    """
    year, _, month = text.rpartition("-")
    if not re.fullmatch("[0-9]{4}", year):
        return text
    name = MONTHS[int(month) - 1] if 1 <= int(month) <= len(MONTHS) else month
    return f"{name} {year}" if is_first or name == MONTHS[0] else name
