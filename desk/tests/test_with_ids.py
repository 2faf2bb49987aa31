"""Lines with the ids of their contracts."""

from __future__ import annotations

import unittest

from tests.support import Ran, Room, run_desk


class WithIds(Room):
    def test_lines(self) -> None:
        table = self.file("ids.csv", 'name,id,comment\nloan,7,"a ""b"", c"\ngone,8,\n')
        lines = self.file(
            "l.csv", "loan,2026-01-05,A,B,EUR,5.00\ngone,3,A,B,EUR,1\ngone,loan,4,B,A,EUR,2.50\n"
        )
        wanted = (
            'loan,2026-01-05,A,B,EUR,5.00,7,"a ""b"", c"\n'
            "gone,3,A,B,EUR,1,8,\n"
            'gone,loan,4,B,A,EUR,2.50,7,"a ""b"", c"\n'
        )
        self.assertEqual(run_desk("with-ids", lines, table), Ran(0, wanted, ""))

    def test_lines_without_a_row(self) -> None:
        table, lines = self.file("ids.csv", "name,id\nloan,7\n"), self.file(
            "l.csv", "loan,1,A,B,EUR,5.00\n*,3,A,B,EUR,1\n"
        )
        ran = run_desk("with-ids", lines, table)
        self.assertEqual((ran.status, ran.output), (10, ""))
        self.assertIn("l.csv: line 2 is of *, which has no row in", ran.errors)
        self.assertEqual(
            run_desk("with-ids", lines, table, "--all").output,
            "loan,1,A,B,EUR,5.00,7\n*,3,A,B,EUR,1,\n",
        )

    def test_what_is_no_line(self) -> None:
        table = self.file("ids.csv", "name,id\nloan,7\n")
        for text in ("fault missing FX 3\n", "loan,1,A,B,EUR\n", "old,loan,1,A,B,EUR,1\n"):
            ran = run_desk("with-ids", self.file("l.csv", text), table)
            self.assertEqual((ran.status, ran.output), (7, ""))
            self.assertIn("l.csv: line 1 is no flow line", ran.errors)


if __name__ == "__main__":
    unittest.main()
