"""A member's book for a history, asked here or elsewhere."""

import os
import sys
from pathlib import Path

from bench import TOP, run

DESK = os.path.join(TOP, "desk")
sys.path.append(DESK)
from tests.member import Member

FILES = "book.txt", "fixings.csv", "curve.csv"
DAYS = "2026-01-05", "2026-01-12", "--rates-to", "2028-01-01"


class History:
    """The files of a member in a folder, and a history of eight days of them."""

    def __init__(self, room, program):
        self.room, self.program = os.path.join(room, "member"), program
        os.mkdir(self.room)
        Member(contracts=24, parties=5, assets=3, days=16).write(Path(self.room))
        self.want = self.printed()

    def words(self, *words):
        """The words of the command; without others it asks on this machine."""
        command = sys.executable, os.path.join(DESK, "tilugba-desk"), "history", "--program", self.program
        return [*command, *FILES, *DAYS, *words]

    def printed(self, *words, **more):
        """The status of the command, what it prints, and what it says beside that."""
        return run(*self.words(*words), folder=self.room, **more)

    @property
    def count(self):
        return self.want[1].count("\n") - 1
