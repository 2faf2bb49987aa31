"""How far a command is: on a terminal a line that is written over, and elsewhere nothing."""

import io
import unittest
from unittest import mock

from tilugba import progress
from tilugba.progress import Progress


class Terminal(io.StringIO):
    def isatty(self) -> bool:
        return True


class Shown(unittest.TestCase):
    def test_a_terminal(self) -> None:
        out = Terminal()
        with mock.patch.object(progress.time, "monotonic", side_effect=[0.0, 0.1, 1.0, 1.1, 2.6]):
            shown = Progress("history", 4096, "values", out)
            for _ in range(4):
                shown.done(1000)
            shown.close()
        lines = out.getvalue().split("\r")
        self.assertEqual(
            lines[1:3],
            ["history: 2,000 of 4,096 values, 1 s", "history: 4,000 of 4,096 values, 3 s"],
        )
        self.assertEqual((lines[3].strip(), len(lines[3]), lines[4]), ("", len(lines[2]), ""))

    def test_no_terminal(self) -> None:
        out = io.StringIO()
        shown = Progress("history", 2, "values", out)
        with mock.patch.object(progress, "PAUSE", 0):
            shown.done(2)
        shown.close()
        self.assertEqual(out.getvalue(), "")
