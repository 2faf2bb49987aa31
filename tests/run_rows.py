"""The rows of crates/run_rows, taken line by line as that program does, by whatever runs words over files.

Rows in which a read or a write fails, or the sink is small, are left out, and so is what the runner says that it cannot run.
Calls of libraries are no runs, and are passed over.
"""
from __future__ import annotations

import re
from collections.abc import Callable
from dataclasses import dataclass, field
from pathlib import Path

ROWS = Path(__file__).resolve().parents[1] / "crates/run_rows"
# Lines that go on with a text or a file, and lines by which something fails.
GOES_ON = ("|", "+", "add", "repeat", "wrap")
FAILING = ("failing", "most", "room")

Files = dict[str, bytes]
# The status and the output of words over files.
Runner = Callable[[list[str], Files], tuple[int, bytes]]
# Counts a finding, and says what is wrong if it does not hold.
Judge = Callable[[bool, str], None]


def piece_of(text: str) -> bytes:
    """A backslash and two digits are a byte."""
    head, *parts = text.split("\\")
    return head.encode() + b"".join(bytes([int(part[:2], 16)]) + part[2:].encode() for part in parts)


def counted(rest: str) -> tuple[int, bytes]:
    times, _, piece = rest.partition(" ")
    return int(times), piece_of(piece)


def shown_byte(byte: int) -> str:
    return chr(byte) if 32 <= byte < 127 and byte != 92 else f"\\{byte:02x}"


def shown_lines(output: bytes) -> list[str]:
    """An output as the program of the rows prints it."""
    found = []
    for piece in re.findall(rb"[^\n]*\n|[^\n]+", output):
        mark, line = ("|", piece[:-1]) if piece.endswith(b"\n") else ("+", piece)
        found.append(f"{mark} {''.join(map(shown_byte, line))}" if line else mark)
    return found


@dataclass
class Row:
    """What a row says: its files, whether something of it fails, how much of an output is shown, and what its runs have written."""

    files: Files = field(default_factory=dict)
    fails: bool = False
    first: int | None = None
    written: bytes | None = None


class Rows:
    """Takes the rows, and holds each run against what it must print."""

    def __init__(self, judge: Judge, run: Runner, can_run: Callable[[Files], bool] = lambda _: True):
        self.judge, self.run_words, self.can_run = judge, run, can_run
        self.texts: Files = {}
        self.row = self.before = Row()
        # The text or the file that goes on.
        self.open: tuple[Files, str] | None = None
        self.wanted = (ROWS / "stdout").read_text(encoding="utf-8").splitlines()
        self.at = self.runs = self.left_out = 0

    def take_all(self) -> None:
        for line in (ROWS / "stdin").read_text(encoding="utf-8").split("\n"):
            self.take(line)
        self.judge(self.at == len(self.wanted), "the rows say more than was run")
        self.judge(self.left_out < self.runs, "more rows are left out than were run")

    def take(self, line: str) -> None:
        if not line or line.startswith("#"):
            return
        word, _, rest = line.partition(" ")
        if word in GOES_ON:
            self.go_on(word, rest)
        else:
            self.open = None
            self.begin(line, word, rest)

    def go_on(self, word: str, rest: str) -> None:
        """The text or the file that is open becomes longer, or is wrapped."""
        assert self.open, f"nothing is open at {word} {rest}"
        texts, name = self.open
        if word == "add":
            texts[name] += self.texts[rest]
        elif word == "repeat":
            times, piece = counted(rest)
            texts[name] += b"".join(piece.replace(b"@", str(number).encode()) for number in range(times))
        elif word == "wrap":
            times, piece = counted(rest)
            for _ in range(times):
                texts[name] = piece.replace(b"@", texts[name])
        else:
            texts[name] += piece_of(rest) + (b"\n" if word == "|" else b"")

    def begin(self, line: str, word: str, rest: str) -> None:
        """A line that is no part of a text."""
        if word == "==":
            self.before, self.row = self.row, Row()
            self.goes_on_with(line)
        elif word == "text":
            self.begin_text(self.texts, rest, b"")
        elif word == "file":
            name, is_copy, text = rest.partition("= ") if rest.startswith("= ") else rest.partition(" = ")
            self.begin_text(self.row.files, name, self.texts[text] if is_copy else b"")
        elif word == "files":
            self.row.files = self.before.files
        elif word == "first":
            self.row.first = int(rest)
        elif word in FAILING:
            self.row.fails = True
        elif word == "keep":
            assert self.row.written is not None, f"nothing ran before {line}"
            self.begin_text(self.texts, rest, self.row.written)
        elif word == "fronts":
            self.run_fronts(line, rest)
        elif re.match(r"(run|again)(\||$)", line):
            self.run_row(line)
        else:
            self.pass_over(line)

    def begin_text(self, texts: Files, name: str, text: bytes) -> None:
        texts[name] = text
        self.open = texts, name

    def goes_on_with(self, line: str) -> None:
        self.judge(self.next(1) == [line], f"the rows do not go on with {line}")

    def next(self, count: int) -> list[str]:
        """The next lines of what the rows must print."""
        self.at += count
        return self.wanted[self.at - count : self.at]

    def next_output(self) -> list[str]:
        """The lines of the output that the last run must have."""
        behind = self.wanted[self.at :]
        return self.next(next((at for at, line in enumerate(behind) if line[:1] not in ("|", "+")), len(behind)))

    def leave_out(self, line: str) -> None:
        """What the run would have printed is taken from the rows."""
        self.left_out += 1
        self.judge(self.next(1)[0].startswith(f"{line}: "), f"the rows do not go on with {line}")
        self.row.written = b"".join(piece_of(it[2:]) + (b"\n" if it[0] == "|" else b"") for it in self.next_output())

    def pass_over(self, line: str) -> None:
        """The call of a library: its line, and what it answers."""
        self.goes_on_with(line)
        self.next_output()

    def run_row(self, line: str) -> None:
        """`run|WORD|WORD`, or `again|WORD|WORD`, which writes behind what the run before it has written."""
        if self.row.fails or not self.can_run(self.row.files):
            self.leave_out(line)
            return
        self.runs += 1
        before = (self.row.written or b"") if line.startswith("again|") else b""
        status, output = self.run_words(line.split("|")[1:], self.row.files)
        self.row.written = before + output
        head, wanted, got = self.next(1)[0], self.next_output(), shown_lines(self.row.written[: self.row.first])
        holds = re.fullmatch(re.escape(line) + rf": {status} \w+", head) is not None and wanted == got
        self.judge(holds, "\n".join(["the rows say", head, *wanted, f"and it gives {status} and", *got]))

    def run_fronts(self, line: str, rest: str) -> None:
        """A run for each proper front of a file, of which only the statuses are shown."""
        file, _, words = rest.partition("|")
        whole = self.row.files[file]
        fronts = (self.row.files | {file: whole[:length]} for length in range(len(whole)))
        statuses = [self.run_words(words.split("|"), files)[0] for files in fronts]
        self.runs += 1
        self.goes_on_with(line)
        while statuses:
            first, last, status = re.fullmatch(r"(\d+) to (\d+): (\d+) \w+", self.next(1)[0]).groups()
            length = int(last) - int(first) + 1
            self.judge(set(statuses[:length]) == {int(status)}, f"{line}: {first} to {last} is not all {status}")
            statuses = statuses[length:]
