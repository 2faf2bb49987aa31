"""The language server for editors, on standard input and output.

It shows faults as one types, by the desk's parser, and on save, by the program, with warnings;
hovers with the date of a day, the number of a node and what `check` says; definition and references
of names; the outline; completion by what may stand at a place; formatting.
"""

from __future__ import annotations

import argparse
import os
import sys

from ..desk import Desk
from ..editor.protocol import Connection
from ..editor.server import Server
from ..program import Program, Status, Stop
from ..signals import Signalled

SECONDS = 30.0


def configure(parser: argparse.ArgumentParser) -> None:
    parser.set_defaults(seconds=SECONDS)


def run(arguments: argparse.Namespace, desk: Desk) -> int:
    def find() -> Program:
        return desk.program

    # A stream that was closed is the null device by now.
    null = os.stat(os.devnull)
    if any(os.path.samestat(os.fstat(number), null) for number in (0, 1)):
        raise Stop(Status.DESK, "an editor talks to it on standard input and output")
    try:
        return Server(Connection(sys.stdin.buffer, sys.stdout.buffer), find).serve()
    # A thread may wait for the input of the editor, and Python would wait for the thread.
    except BrokenPipeError:
        os._exit(1)
    except Signalled as stopped:
        os._exit(stopped.status)
