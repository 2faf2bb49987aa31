"""Answers that are kept in a folder: what was asked once is not asked again, also behind a stop.

A line is a JSON array of the key of a call, what was printed, and a checksum of both, so a line
that was half written, or is no longer as it was, is passed over. Each run adds a file of its
own, and only answers without a fault are kept.
"""

from __future__ import annotations

import hashlib
import json
import os
from collections.abc import Iterator, Sequence
from pathlib import Path
from typing import BinaryIO

from ..program import Answer, Status, Stop, reason_of
from .asks import Ask

FOLDER, END = "answers", ".jsonl"


def line_of(key: str, output: str) -> bytes:
    return json.dumps([key, output, check_of(key, output)]).encode() + b"\n"


def check_of(key: str, output: str) -> str:
    return hashlib.sha256(f"{key} {output}".encode()).hexdigest()[:16]


def lines_in(path: Path) -> Iterator[tuple[str, str]]:
    """The keys and texts of a file of answers, but for lines that are not as they were written."""
    for line in path.read_bytes().splitlines():
        try:
            key, output, check = json.loads(line)
        except (ValueError, TypeError, RecursionError):
            continue
        if isinstance(key, str) and isinstance(output, str) and check == check_of(key, output):
            yield key, output


class Kept:
    """The answers of a folder, to which those of this run are added."""

    def __init__(self, folder: Path, engine: str) -> None:
        self.folder, self.engine = folder / FOLDER, engine
        self.file: BinaryIO | None = None
        self.known: dict[str, str] = {}
        try:
            self.folder.mkdir(parents=True, exist_ok=True)
            for path in sorted(self.folder.glob(f"*{END}")):
                self.known.update(lines_in(path))
        except OSError as error:
            raise Stop(Status.NOT_WRITTEN, f"{folder}: {reason_of(error)}") from error

    def answer(self, ask: Ask) -> Answer | None:
        """The answer of a call, if it is known."""
        output = self.known.get(ask.key(self.engine))
        return None if output is None else Answer(Status.DONE, output.encode())

    def add(self, asks: Sequence[Ask], answers: Sequence[Answer]) -> None:
        """Keeps the answers that have no fault. What is written is there at once."""
        lines = [
            line_of(ask.key(self.engine), answer.text)
            for ask, answer in zip(asks, answers)
            if answer.status == Status.DONE
        ]
        try:
            self.file = self.file or open(self.new_path(), "xb")
            self.file.write(b"".join(lines))
            self.file.flush()
        except OSError as error:
            raise Stop(Status.NOT_WRITTEN, f"{self.folder}: {reason_of(error)}") from error

    def new_path(self) -> Path:
        """The name of a file that no other run has."""
        return self.folder / f"{os.getpid()}-{os.urandom(8).hex()}{END}"

    def close(self) -> None:
        if self.file:
            self.file.close()
