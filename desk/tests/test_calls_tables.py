"""Tables out of rows and DataFrames: what is exact goes in as it is, and what is not is refused
with its row and column.
"""

import datetime
import pickle
import unittest
from decimal import Decimal
from fractions import Fraction
from typing import NamedTuple

import tilugba
from tests.support import Room, the_program
from tests.test_calls import FIXED, HEAD, SPOT
from tilugba import TableError, curve_table, fixings_table, scenario_table
from tilugba.answer_rows import Flow, Rows

try:
    import pandas
except ImportError:
    pandas = None

DAY = datetime.date(2026, 1, 7)
NAN = float("nan")
FLAGGED = (
    HEAD
    + "flag F;\ncontract c = if obs(F, 0) within 1 then scale(1.00, pay(EUR, A, B)) else zero;\n"
)


class Fixing(NamedTuple):
    """A row by names, in another order."""

    day: datetime.date
    label: str
    value: Decimal


class Tables(unittest.TestCase):
    """Tables as bytes."""

    def test_values_are_written_exactly(self) -> None:
        values = [
            (Decimal("1.10"), "1.10"), (Decimal("1E-7"), "0.0000001"), (Decimal("-0.5"), "-0.5")
        ]
        values += [(3, "3"), ("1.25", "1.25"), (True, "true")]
        for value, written in values:
            with self.subTest(value=value):
                self.assertEqual(
                    fixings_table([("FX", 2, value)]), f"label,day,value\nFX,2,{written}\n".encode()
                )

    def test_days(self) -> None:
        days = [
            (0, "0"),
            (-3, "-3"),
            *((day, "2026-01-07") for day in (DAY, "2026-01-07", datetime.datetime(2026, 1, 7))),
        ]
        for day, written in days:
            with self.subTest(day=day):
                self.assertEqual(
                    fixings_table([("FX", day, 1)]), f"label,day,value\nFX,{written},1\n".encode()
                )

    def test_rows_may_have_names(self) -> None:
        wanted = b"label,day,value\nFX,2026-01-07,1.5\n"
        self.assertEqual(
            fixings_table([{"value": Decimal("1.5"), "day": DAY, "label": "FX", "source": "desk"}]),
            wanted,
        )
        self.assertEqual(fixings_table([Fixing(DAY, "FX", Decimal("1.5"))]), wanted)
        self.assertEqual(fixings_table(iter([("FX", DAY, Decimal("1.5"))])), wanted)
        self.assertEqual(fixings_table([]), b"label,day,value\n")

    def test_a_text_is_itself(self) -> None:
        for text in ("label,day,value\n", b"label,day,value\n"):
            self.assertEqual(fixings_table(text), b"label,day,value\n")

    def test_wide_rows(self) -> None:
        rows = [{"day": DAY, "FX": Decimal("1.5"), "GX": None}, {"day": 9, "GX": NAN, "F": False}]
        self.assertEqual(fixings_table(rows), b"label,day,value\nFX,2026-01-07,1.5\nF,9,false\n")
        rows = [
            {"scenario": "up", "day": 2, "FX": 2},
            {"scenario": "*", "day": 3, "FX": Decimal("NaN"), "F": True},
        ]
        self.assertEqual(scenario_table(rows), b"scenario,label,day,value\nup,FX,2,2\n*,F,3,true\n")

    def test_curves(self) -> None:
        self.assertEqual(
            curve_table([(0, 1), (30, Decimal("0.99"))]), b"offset,factor\n0,1\n30,0.99\n"
        )
        rounded = curve_table([(0, 1.0), (30, 0.99)], mode="half_even", decimals={"factor": 4})
        self.assertEqual(rounded, b"offset,factor\n0,1.0000\n30,0.9900\n")

    def test_floats_are_rounded_once_by_their_own_value(self) -> None:
        cases = [
            ("half_even", 0.125, "0.12"),
            ("half_away", 0.125, "0.13"),
            ("half_away", -0.125, "-0.13"),
            ("floor", -0.121, "-0.13"),
        ]
        cases += [
            ("ceil", 0.121, "0.13"),
            ("half_away", 0.285, "0.28"),
            ("half_away", 1e300, f"{int(1e300)}.00"),
            ("half_even", 1e20, "100000000000000000000.00"),
        ]
        for mode, value, written in cases:
            with self.subTest(mode=mode, value=value):
                table = fixings_table([("FX", 0, value)], mode=mode, decimals={"FX": 2})
                self.assertEqual(table, f"label,day,value\nFX,0,{written}\n".encode())

    def wrong(self, row: int, column: str, told: str, *table: object, **how: object) -> None:
        with self.assertRaises(TableError) as caught:
            fixings_table(list(table), **how)
        error = caught.exception
        self.assertEqual((error.row, error.column), (row, column))
        self.assertIn(told, str(error))
        self.assertEqual(vars(pickle.loads(pickle.dumps(error))), vars(error))

    def test_what_is_not_exact_names_its_row_and_column(self) -> None:
        good = ("FX", 0, 1)
        self.wrong(2, "value", "1.1 is a float and not exact", good, ("FX", 1, 1.1))
        self.wrong(
            1,
            "value",
            "there are no decimals for FX",
            ("FX", 1, 1.1),
            mode="floor",
            decimals={"GX": 2},
        )
        self.wrong(1, "FX", "0.5 is a float", {"day": 0, "FX": 0.5})
        self.wrong(1, "value", "inf", ("FX", 1, float("inf")), mode="floor", decimals={"FX": 2})
        self.wrong(1, "value", "Fraction(1, 3)", ("FX", 1, Fraction(1, 3)))
        self.wrong(1, "value", "Infinity", ("FX", 1, Decimal("Infinity")))
        self.wrong(3, "value", "there is nothing", good, good, ("FX", 1, None))
        self.wrong(1, "value", "there is nothing", ("FX", 1, NAN))
        self.wrong(1, "label", "there is nothing", (None, 1, 1))
        self.wrong(1, "label", "a name is a text", (1, 1, 1))
        self.wrong(2, "day", "there is nothing", {"day": 0, "FX": 1}, {"day": None, "FX": 1})
        self.wrong(1, "day", "a day is a date", ("FX", True, 1))
        self.wrong(1, "day", "a day is a date", ("FX", 1.0, 1))
        self.wrong(1, "day", "no time", ("FX", datetime.datetime(2026, 1, 7, 12), 1))
        zoned = datetime.datetime(2026, 1, 7, tzinfo=datetime.timezone.utc)
        self.wrong(1, "day", "no time zone", ("FX", zoned, 1))

    def test_what_python_makes_nothing_of(self) -> None:
        """It is refused as any other cell is."""
        self.wrong(1, "value", "there is nothing", ("FX", 0, Decimal("sNaN")))
        self.wrong(2, "value", "too many digits", ("FX", 0, 1), ("FX", 1, 10**5000))
        self.wrong(1, "day", "too many digits", ("FX", 10**5000, 1))
        for rows, told in ([7], "row 1 is no row of cells: 7"), (
            [("FX", 0, 1), "FX,1,1"], "row 2 is no row of cells: 'FX,1,1'"
        ):
            with self.assertRaisesRegex(TableError, told):
                fixings_table(rows)
        for decimals in "2", 2.0, None, 91, 10**5:
            with self.assertRaisesRegex(TableError, "is no number of decimals"):
                fixings_table([("FX", 0, 0.5)], mode="floor", decimals={"FX": decimals})
        greatest = fixings_table([("FX", 0, -1.7e308)], mode="floor", decimals={"FX": 90})
        self.assertEqual(len(greatest), len("label,day,value\nFX,0,-.\n") + 309 + 90)

    def test_what_is_no_table(self) -> None:
        for table in ([("FX", 0)], [{"label": "FX", "day": 0}], 5, {"FX": 1}, [{"FX": 1}]):
            with self.subTest(table=table), self.assertRaises(TableError):
                fixings_table(table)
        for table in ([{"scenario": "up", "label": "FX", "value": 1}], [{"day": 1, "FX": 1}]):
            with self.subTest(table=table), self.assertRaises(TableError):
                scenario_table(table)
        for how in ({"mode": "half_even"}, {"decimals": {}}, {"mode": "half", "decimals": {}}):
            with self.subTest(how=how), self.assertRaises(TableError):
                fixings_table([], **how)

    def test_fields_are_quoted(self) -> None:
        self.assertEqual(fixings_table([('a,"b"', 0, 1)]), b'label,day,value\n"a,""b""",0,1\n')


class Calls(Room):
    """Tables in calls."""

    def setUp(self) -> None:
        super().setUp()
        self.desk = tilugba.over_program(the_program().path)

    def test_a_call_takes_rows(self) -> None:
        for table in (
            FIXED, [{"day": 2, "FX": Decimal("1.2345")}], "label,day,value\nFX,2,1.2345\n"
        ):
            self.assertEqual(self.desk.flows(SPOT, table)[0].amount, Decimal("12.34"))
        with self.assertRaises(TableError):
            self.desk.flows(SPOT, [("FX", 2, 1.2345)])
        rounded = fixings_table([("FX", 2, 1.2345)], mode="half_even", decimals={"FX": 4})
        self.assertEqual(self.desk.flows(SPOT, rounded)[0].amount, Decimal("12.34"))

    def test_a_bool_is_for_flags_alone(self) -> None:
        self.assertEqual(len(self.desk.flows(FLAGGED, [("F", 0, True)])), 1)
        for table in (
            [("F", 0, 1), ("FX", 0, 1)], [("F", 0, False), ("F", 1, False), ("FX", 0, True)]
        ):
            with self.subTest(table=table), self.assertRaises(tilugba.RowError) as caught:
                self.desk.flows(FLAGGED, table)
            self.assertEqual(caught.exception.kind, "value")


@unittest.skipUnless(pandas, "frames, since pandas is not installed")
class Frames(unittest.TestCase):
    """DataFrames of pandas."""

    def test_a_frame_has_exact_objects(self) -> None:
        row = Flow("c", datetime.date(5011, 1, 1), "A", "B", "EUR", Decimal("0.10"))
        frame = Rows(Flow, [row]).frame()
        self.assertEqual(list(frame.columns), list(Flow._fields))
        self.assertEqual(
            (frame.day[0], frame.amount[0], set(map(str, frame.dtypes))),
            (row.day, row.amount, {"object"}),
        )
        self.assertEqual(len(Rows(Flow).frame()), 0)

    def test_long_and_wide_frames(self) -> None:
        frame = pandas.DataFrame(
            {"label": ["FX", "F"], "day": [DAY, 2], "value": [Decimal("1.5"), True]}
        )
        self.assertEqual(fixings_table(frame), b"label,day,value\nFX,2026-01-07,1.5\nF,2,true\n")
        days = pandas.DatetimeIndex(["2026-01-07", "2026-01-08"], name="day")
        wide = pandas.DataFrame({"FX": [1.5, None], "GX": [None, 0.25]}, index=days)
        wanted = b"label,day,value\nFX,2026-01-07,1.50\nGX,2026-01-08,0.25\n"
        how = {"mode": "half_even", "decimals": {"FX": 2, "GX": 2}}
        self.assertEqual(fixings_table(wide, **how), wanted)
        self.assertEqual(fixings_table(wide.rename_axis(None), **how), wanted)
        self.assertEqual(fixings_table(wide.reset_index(), **how), wanted)
        with self.assertRaises(TableError) as caught:
            fixings_table(wide)
        self.assertEqual((caught.exception.row, caught.exception.column), (1, "FX"))

    def test_numbers_of_numpy(self) -> None:
        frame = pandas.DataFrame({"offset": [0, 30], "factor": [1, 0]})
        self.assertEqual(curve_table(frame), b"offset,factor\n0,1\n30,0\n")
        flags = pandas.DataFrame({"scenario": ["up"], "day": [3], "F": [True]})
        self.assertEqual(scenario_table(flags), b"scenario,label,day,value\nup,F,3,true\n")

    def test_a_cell_without_a_value(self) -> None:
        frame = pandas.DataFrame({"label": ["FX", "FX"], "day": [1, 2], "value": [pandas.NA, 1]})
        with self.assertRaises(TableError) as caught:
            fixings_table(frame)
        self.assertEqual((caught.exception.row, caught.exception.column), (1, "value"))
