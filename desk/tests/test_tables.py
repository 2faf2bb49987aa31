"""Records as the program reads them, with their bytes; tables by label and day."""

import random
import unittest

from tests.support import Room, the_program
from tilugba import tables
from tilugba.program import BadRow, Stop
from tilugba.tables import FIXINGS, records

BOOK = b"portfolio 1; amounts 2; num FX : 4 in 0.5000 .. 2.0000;\n"


class Records(unittest.TestCase):
    def test_fields(self) -> None:
        cases = {
            b"a,b\nc,d\n": [(1, 1, (b"a", b"b")), (2, 2, (b"c", b"d"))],
            b"\xef\xbb\xbf\n\na,b\r\n\r\nc,": [(1, 3, (b"a", b"b")), (2, 5, (b"c", b""))],
            b'"a\n1","b""c"x\rd,e': [(1, 1, (b"a\n1", b'b"cx')), (2, 3, (b"d", b"e"))],
            b'a,"b': [(1, 1, (b"a", b"b"))],
            b"": [],
        }
        for data, wanted in cases.items():
            with self.subTest(data=data):
                self.assertEqual([(it.number, it.line, it.fields) for it in records(data)], wanted)

    def test_the_bytes_are_kept(self) -> None:
        data = b'a,b\r\n"c\n","d"\n'
        self.assertEqual(b"".join(it.data for it in records(data)), data)

    def test_some_of_them_are_those_of_all(self) -> None:
        chance = random.Random(1)
        for _ in range(3_000):
            data = bytes(chance.choice(b'a,"\r\n;') for _ in range(chance.randrange(14)))
            found = {it.number: it for it in records(data)}
            numbers = {number for number in range(1, 15) if chance.random() < 0.5}
            some = {number: it for number, it in found.items() if number in numbers}
            self.assertEqual(tables.records_numbered(data, numbers), some, data)

    def test_records_are_counted_as_the_program_does(self) -> None:
        """Random tables: a record whose label is not declared is the program's record of that
        number.
        """
        run, chance = the_program().run, random.Random(7)
        pieces = [
            "\n",
            "\r",
            "\r\n",
            "\n\n",
            ",",
            '"',
            '""',
            " ",
            "FX,1,1.0000\n",
            "FX,2,1\n",
            '"FX",3,"1"\n',
            '"F""X"\n',
            "\ufeff",
        ]
        for _ in range(300):
            body = "".join(chance.choices(pieces, k=chance.randrange(12)))
            data = ("label,day,value\n" + body).encode()
            fault = run("flows", BOOK, data).fault
            found = list(records(data))
            bad = [it.number for it in found[1:] if len(it.fields) != 3 or it.fields[0] != b"FX"]
            with self.subTest(data=data):
                if bad:
                    self.assertEqual((fault.cause.record, type(fault.cause)), (bad[0], BadRow))
                elif fault:
                    self.assertNotIn(fault.cause.kind, ("shape", "label"))


class Files(Room):
    def test_a_table_of_another_shape(self) -> None:
        for text, said in [
            ("a,b\n", "record 1 is not the header"),
            ("label,day,value\nFX,1\n", "record 2 does not have 3 fields"),
        ]:
            with self.assertRaisesRegex(Stop, said):
                tables.read(self.file("fix.csv", text), FIXINGS)

    def test_rows_by_label(self) -> None:
        table = tables.rows_by_label(
            self.file(
                "fix.csv",
                "label,day,value\nFX,2026-01-09,1.1\nF,2026-01-05,true\nFX,2026-01-12,1.2\n",
            )
        )
        self.assertEqual((list(table.values), table.are_dates), (["FX", "F"], True))
        self.assertEqual(
            list(table.filled_lines())[1:5],
            [
                "FX,2026-01-09,1.1\n",
                "FX,2026-01-10,1.1\n",
                "FX,2026-01-11,1.1\n",
                "FX,2026-01-12,1.2\n",
            ],
        )
        known = table.until(min(table.values["FX"]))
        self.assertEqual(len(known.values["FX"]), 1)

    def test_rows_that_do_not_go_together(self) -> None:
        for rows, said in [
            ("FX,1,1\nFX,2026-01-05,1\n", "record 3 has a day of another kind"),
            ("FX,1,1\nFX,1,2\n", "record 3 has another value"),
            ("FX,1,1.\n", "record 2 is not LABEL,DAY,VALUE"),
        ]:
            with self.assertRaisesRegex(Stop, said):
                tables.rows_by_label(self.file("fix.csv", "label,day,value\n" + rows))

    def test_lines(self) -> None:
        self.assertEqual(list(tables.lines_of([["a", "b,c", 'd"']])), ['a,"b,c","d"""\n'])
