"""Calls as a Slurm array: what each task is to ask is written into a folder, and its answers are
kept there.
"""

from __future__ import annotations

import json
import os
import shlex
import sys
from collections.abc import Iterable, Iterator, Sequence
from pathlib import Path

from ..engines import Engine
from ..files import create, read_file
from ..program import Answer, Status, Stop, reason_of
from .asks import Ask, answer_all, pieces, sum_of, sum_of_engine
from .kept import END, FOLDER, Kept, line_of

ASKS, TASK, SUBMIT, ENDING = "asks", "task", "submit", ".json"
# A task asks so many calls, and an array has at most so many tasks, which Slurm takes by default.
CALLS, TASKS = 1_000, 1_000
TASK_LINES = """#!/bin/sh
# A task of the array: the calls of one file of asks, answered into the folder of answers.
exec {words} {folder} "$SLURM_ARRAY_TASK_ID"
"""
SUBMIT_LINES = """#!/bin/sh
# Runs all tasks and waits for them. The status is the greatest of the tasks.
exec sbatch --wait --array=1-{count} --output={folder}/said.%a {folder}/task
"""


def write(asks: Iterable[Ask], folder: Path, engine: Engine, words: Sequence[str]) -> int:
    """Writes the calls that are not kept yet, and the scripts; how many tasks there are."""
    refuse_foreign(folder)
    total = sum_of_engine(engine)
    kept = Kept(folder, total)
    missing = [it for it in asks if kept.answer(it) is None]
    parts = list(pieces(missing, max(CALLS, -(-len(missing) // TASKS))))
    place, told = shlex.quote(str(folder.absolute())), " ".join(map(shlex.quote, words))
    try:
        (folder / ASKS).mkdir(exist_ok=True)
        # What an earlier call has written here is of other calls.
        for path in own_asks(folder):
            path.unlink()
        for number, part in enumerate(parts, 1):
            create(folder / ASKS / f"{number}{ENDING}", json.dumps(written(part, total)).encode())
        script(folder / TASK, TASK_LINES.format(words=told, folder=place))
        script(folder / SUBMIT, SUBMIT_LINES.format(count=len(parts), folder=place))
    except OSError as error:
        raise Stop(Status.NOT_WRITTEN, f"{folder}: {reason_of(error)}") from error
    return len(parts)


def own_asks(folder: Path) -> Iterator[Path]:
    """The files of asks, by their names."""
    return (it for it in (folder / ASKS).glob(f"*{ENDING}") if it.stem.isdigit())


def refuse_foreign(folder: Path) -> None:
    """Ends the command if the folder has scripts of the names of ours that are not ours."""
    for name, lines in (TASK, TASK_LINES), (SUBMIT, SUBMIT_LINES):
        path = folder / name
        head = "".join(lines.splitlines(keepends=True)[:2]).encode()
        if path.exists() and not read_file(path).startswith(head):
            raise Stop(Status.NOT_WRITTEN, f"{path} is there already, and is not written over")


def script(path: Path, text: str) -> None:
    """Writes a script of the folder anew."""
    path.unlink(missing_ok=True)
    create(path, text.encode())
    path.chmod(0o755)


def written(part: Sequence[Ask], engine_sum: str) -> dict[str, object]:
    """The calls of a task. A file that many share is there once."""
    texts = {
        sum_of(data): data.decode("utf-8", "surrogateescape") for it in part for _, data in it.files
    }
    calls = [[it.words, {name: sum_of(data) for name, data in it.files}] for it in part]
    return {"engine": engine_sum, "files": texts, "calls": calls}


def asks_in(path: Path, engine_sum: str) -> Iterator[Ask]:
    """The calls of a file of asks."""
    try:
        told = json.loads(read_file(path))
        if told["engine"] != engine_sum:
            raise Stop(
                Status.DESK, f"{path} is for another library or program than that of this node"
            )
        texts = {
            total: text.encode("utf-8", "surrogateescape") for total, text in told["files"].items()
        }
        for words, files in told["calls"]:
            yield Ask(tuple(words), tuple((name, texts[total]) for name, total in files.items()))
    except (ValueError, KeyError, TypeError, RecursionError) as error:
        raise Stop(Status.ROW, f"{path} is no file of asks of this release") from error


def answer_task(folder: Path, number: int, engine: Engine) -> int:
    """Answers a file of asks, and keeps what has no fault; the greatest status that another node
    might not have.
    """
    total = sum_of_engine(engine)
    asks = list(asks_in(folder / ASKS / f"{number}{ENDING}", total))
    answers = answer_all(engine, asks)
    lines = [
        line_of(ask.key(total), answer.text)
        for ask, answer in zip(asks, answers)
        if answer.status == Status.DONE
    ]
    keep(folder / FOLDER, number, b"".join(lines))
    return max((it.status for it in answers if is_of_the_machine(it)), default=Status.DONE)


def is_of_the_machine(answer: Answer) -> bool:
    """Whether another node may do better. What files and words decide is told when the answers
    are asked for.
    """
    return answer.status in (Status.NOT_WRITTEN, Status.MEMORY)


def keep(folder: Path, number: int, data: bytes) -> None:
    """Puts the answers of a task into the folder, whole or not at all. One that runs twice
    writes the same.
    """
    part = folder / f"{number}.{os.getpid()}.{os.urandom(4).hex()}.part"
    try:
        folder.mkdir(parents=True, exist_ok=True)
        part.write_bytes(data)
        os.replace(part, folder / f"task-{number}-{sum_of(data)[:12]}{END}")
    except OSError as error:
        raise Stop(Status.NOT_WRITTEN, f"{folder}: {reason_of(error)}") from error


def words_of_task(beside: Path, program: str | None) -> list[str]:
    """The words of a task before its folder: this Python, this desk, and the program that was
    named.
    """
    words = [sys.executable, str(beside / "tilugba-desk"), "answer-part"]
    return words + (["--program", str(Path(program).absolute())] if program else [])
