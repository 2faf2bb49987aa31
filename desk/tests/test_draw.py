"""Pictures by gnuplot: which tables are drawn, and what gnuplot is told of a name."""

import os
import unittest
from unittest import mock

from tests.support import Ran, Room, run_desk

# It draws nothing, and shows what it was told.
GNUPLOT = "#!/bin/sh\necho '<svg><title>picture</title>'; cat; echo '</svg>'\n"


class Draw(Room):
    def setUp(self) -> None:
        super().setUp()
        (self.folder / "bin").mkdir()
        self.script("bin/gnuplot", GNUPLOT)
        path = f"{self.folder / 'bin'}:{os.environ['PATH']}"
        self.enterContext(mock.patch.dict(os.environ, {"PATH": path}))
        before = os.getcwd()
        os.chdir(self.folder)
        self.addCleanup(os.chdir, before)

    def draw(self, name: str, text: str) -> Ran:
        self.file(name, text)
        return run_desk("draw", "--", name, "out.svg", "A title")

    def test_a_name_is_that_of_a_file(self) -> None:
        """Gnuplot would take the first for a command, and the second for its own input."""
        for name in ("< touch made", "-", "+", "a b.csv"):
            ran = self.draw(name, "day,A\n1,2.00\n")
            self.assertEqual((ran.status, ran.errors), (0, ""))
            self.assertIn(f"plot for [column=2:2] './{name}' using", self.drawn())
        for name in ("it's", "two\nlines"):
            self.assertEqual(self.draw(name, "day,A\n1,2.00\n").status, 7)

    def drawn(self) -> str:
        return (self.folder / "out.svg").read_text()

    def test_tables(self) -> None:
        for text, status in [
            ("month,A\n2026-01,1\n2026-02,2\n", 0),
            ("value,scenarios\n-5,1\n0,2\n", 0),
            ("day,A\n2026-01-05,1\n2026-01-06,2\n", 0),
            ("value,scenarios\n2026-01,1\n2026-02,2\n", 7),
            ("value,scenarios\n2026-01-05,1\n2026-01-06,2\n", 7),
            ("day,A\n2026-01,1\n", 7),
            ("day,A\n1,1\n2026-01-06,2\n", 7),
            ("month,A\nsoon,1\n", 7),
            ("day,A\n1,1,1\n", 7),
            ("day,A\n", 7),
            ("", 7),
        ]:
            with self.subTest(text=text):
                ran = self.draw("table.csv", text)
                self.assertEqual((ran.status, ran.output), (status, ""))
                self.assertEqual(ran.errors.count("\n"), 1 if status else 0)


if __name__ == "__main__":
    unittest.main()
