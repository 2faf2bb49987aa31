"""Answers a part of the calls that `--slurm FOLDER` has written: a task of the array.

`history --slurm FOLDER` and `exposure --slurm FOLDER` write the calls into FOLDER/asks, and the
script FOLDER/task, which runs this command on a node: N is the number of the file. The answers go
into FOLDER/answers, whole or not at all, so a task that is run twice does no harm. When all tasks
are done, the same words with --keep FOLDER print the table, and ask what is still missing.

Ends with 0 if each call was answered, if only by a fault that its files decide; 3 if there is no
such file; 4 if the answers are not written; 7 if the file is not of this release; 9 if a call ran
out of memory; 70 if the library or the program of this node is another one.
"""

from __future__ import annotations

import argparse
from pathlib import Path

from ..asking.by_slurm import TASKS, answer_task
from ..counts import count_up_to
from ..desk import Desk


def configure(parser: argparse.ArgumentParser) -> None:
    parser.add_argument("folder", metavar="FOLDER", type=Path, help="that of --slurm")
    parser.add_argument(
        "number", metavar="N", type=count_up_to(TASKS), help="the number of the task"
    )


def run(arguments: argparse.Namespace, desk: Desk) -> int:
    return answer_task(arguments.folder, arguments.number, desk.engine)
