"""Days as numbers and dates, weekdays, and files of holidays."""

import datetime
import unittest

from tests.support import Room
from tilugba.days import (
    Calendar, Day, date_text, day_of, is_weekend, ordinal_of, read_holidays, weekday_of
)
from tilugba.program import Stop

MONDAY = datetime.date(2026, 1, 5).toordinal()


class Dates(unittest.TestCase):
    def test_dates_that_exist(self) -> None:
        for text, ordinal in [
            ("0001-01-01", 1),
            ("2026-01-05", MONDAY),
            ("2000-02-29", 730179),
            ("9999-12-31", 3652059),
        ]:
            self.assertEqual(ordinal_of(text), ordinal)
            self.assertEqual(date_text(ordinal), text)

    def test_the_year_0(self) -> None:
        self.assertEqual(ordinal_of("0000-12-31"), 0)
        self.assertEqual(ordinal_of("0000-02-29"), 1 - 366 + 59)
        self.assertEqual(
            [date_text(it) for it in (0, 1 - 366, -366)], ["0000-12-31", "0000-01-01", None]
        )

    def test_dates_that_do_not_exist(self) -> None:
        for text in (
            "2026-02-30", "1900-02-29", "2026-1-05", "2026-00-10", "20260105", "2026-01-05 ", ""
        ):
            self.assertIsNone(ordinal_of(text))
        self.assertIsNone(date_text(3652060))

    def test_weekdays(self) -> None:
        told = [weekday_of(MONDAY + day) for day in range(7)]
        self.assertEqual((told[0], told[6]), ("Monday", "Sunday"))
        self.assertEqual([is_weekend(MONDAY + day) for day in range(7)], [False] * 5 + [True] * 2)

    def test_days_as_tables_have_them(self) -> None:
        self.assertEqual(day_of("-12"), Day(-12))
        self.assertEqual(day_of("007"), Day(7))
        self.assertEqual(day_of("2026-01-05"), Day(MONDAY, is_date=True))
        for text in ("1234567890", "+1", "1.0", "--1", "6/30/2026", ""):
            self.assertIsNone(day_of(text))
        self.assertEqual([str(day_of(it)) for it in ("-12", "2026-01-05")], ["-12", "2026-01-05"])


class Calendars(Room):
    def test_with_an_origin(self) -> None:
        calendar = Calendar(MONDAY, frozenset({MONDAY + 1}))
        self.assertEqual(calendar.text(5), "2026-01-10")
        self.assertEqual(calendar.told(6), "2026-01-11 (day 6, a Sunday)")
        self.assertEqual(
            [calendar.why_closed(it) for it in (0, 1, 5)], [None, "a holiday", "a Saturday"]
        )
        self.assertEqual([calendar.number(Day(3)), calendar.number(Day(MONDAY + 3, True))], [3, 3])
        self.assertEqual(calendar.told(3_000_000), "day 3000000")

    def test_without_an_origin(self) -> None:
        calendar = Calendar()
        self.assertEqual(
            (calendar.text(5), calendar.told(5), calendar.why_closed(5)), ("5", "day 5", None)
        )
        self.assertIsNone(calendar.number(Day(MONDAY, True)))

    def test_holidays(self) -> None:
        path = self.file(
            "holidays.txt",
            "# TARGET\n2026-01-01 New Year\n\n2026-04-03,Good Friday\n2026-04-06# Easter\n",
        )
        self.assertEqual(
            sorted(map(date_text, read_holidays(path))), ["2026-01-01", "2026-04-03", "2026-04-06"]
        )
        marked = self.file("marked.txt", "\ufeff2026-01-01\r\n")
        self.assertEqual(sorted(map(date_text, read_holidays(marked))), ["2026-01-01"])
        with self.assertRaisesRegex(Stop, "line 1 does not begin with a date"):
            read_holidays(self.file("bad.txt", "1 January 2026\n"))
        with self.assertRaisesRegex(Stop, "No such file"):
            read_holidays(self.folder / "none")
        with self.assertRaisesRegex(Stop, "not UTF-8"):
            read_holidays(self.file("latin.txt", b"2026-01-01 \xe9\n"))
