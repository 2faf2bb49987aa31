"""Tables of payments as portfolios: on random tables the flows are what the rows say."""

from __future__ import annotations

import os
import unittest
from dataclasses import dataclass, field
from datetime import date
from decimal import Decimal
from fractions import Fraction
from typing import Any

from tests.random_books import Place, makers
from tests.support import Ran, Room, run_desk, the_program
from tilugba.calendars import BusinessDays, Roll
from tilugba.days import date_text, ordinal_of

model = makers.model
DECLS = """portfolio 2;
amounts 2;
origin 2026-01-05;
start 10;  # the 15th
party Me, Acme;
asset EUR, JPY : 0;
num Rate : 5 in -0.02000 .. 0.15000;
flag F;
"""
PLAIN = "contract,date,from,to,asset,amount"
COUPON = PLAIN + ",label,fixing date,notional,numerator,denominator,mode,spread,floor,cap"
TABLES = int(os.environ.get("TILUGBA_TABLES", "120"))


class Rows(Room):
    def rows(self, *rows: str, header: str = COUPON, decls: str = DECLS, words: str = "") -> Ran:
        table = "".join(f"{row}\n" for row in (header, *rows))
        files = [self.file("decls.txt", decls), self.file("rows.csv", table)]
        ran = run_desk("rows", *files, *words.split())
        return Ran(ran.status, ran.output, ran.errors.replace(f"{self.folder}/", ""))

    def term(self, row: str, words: str = "") -> str:
        """The term of a row, whose table has it alone."""
        header = COUPON if row.count(",") > 6 else PLAIN
        ran = self.rows(row, header=header, words=words)
        self.assertEqual((ran.status, ran.errors), (0, ""))
        self.assertTrue(ran.output.startswith(DECLS))
        return ran.output.removeprefix(DECLS).removeprefix("contract c = ").removesuffix(";\n")

    def test_amounts(self) -> None:
        for row, term in [
            ("c,2026-01-15,Me,Acme,EUR,5.00", "after(0, scale(5.00, pay(EUR, Me, Acme)))"),
            ("c,11,Me,Acme,EUR,-5", "after(1, scale(-5, pay(EUR, Me, Acme)))"),
            ('"c","2027-01-15","Acme","Me","JPY","7"', "after(365, scale(7, pay(JPY, Acme, Me)))"),
        ]:
            with self.subTest(row=row):
                self.assertEqual(self.term(row), term)

    def test_coupons(self) -> None:
        paid = "after(10, scale({}, pay(EUR, Me, Acme)))"
        row = "c,20,Me,Acme,EUR,,"
        for cells, size in [
            (",,1000,31,360,floor,0.05,,", "div(floor, 2, ((0.05 * 1000) * 31), 360)"),
            ("Rate,8,1000.00,1,4,ceil,,,", "div(ceil, 2, ((obs(Rate, -12) * 1000.00) * 1), 4)"),
            ("Rate,20,-9,1,4,ceil,,,", "div(ceil, 2, ((obs(Rate, 0) * -9) * 1), 4)"),
            ("Rate,-899980,9,1,4,ceil,,,", "div(ceil, 2, ((obs(Rate, -900000) * 9) * 1), 4)"),
            ("Rate,2026-01-01,9,1,4,ceil,-0.01,0.02,0.03",
             "div(ceil, 2, (((min(0.03, max(0.02, obs(Rate, -24))) + -0.01) * 9) * 1), 4)"),
        ]:  # fmt: skip
            with self.subTest(cells=cells):
                self.assertEqual(self.term(row + cells), paid.format(size))

    def test_contracts_are_balanced_trees_in_the_order_of_their_names(self) -> None:
        pay = "scale(1, pay(EUR, Me, Acme))"
        some = [f"{name},{day},Me,Acme,EUR,1" for name, day in zip("babb", (10, 11, 12, 13))]
        both = f"both(both(after(0, {pay}), after(2, {pay})), after(3, {pay}))"
        wanted = f"{DECLS}contract b = {both};\ncontract a = after(1, {pay});\n"
        self.assertEqual(self.rows(*some, header=PLAIN), Ran(0, wanted, ""))
        self.assertEqual(self.rows(header=PLAIN), Ran(0, DECLS, ""))

    def test_payments_are_moved_and_fixings_are_not(self) -> None:
        closed = self.file("closed.txt", "2026-05-01 a Friday\n")
        for day, roll, wanted in [
            ("2026-05-02", "following", "2026-05-04"),
            ("2026-05-01", "following", "2026-05-04"),
            ("2026-05-30", "modified", "2026-05-29"),
            ("2026-05-01", "modified", "2026-05-04"),
            ("2026-05-03", "preceding", "2026-04-30"),
            ("2026-05-05", "preceding", "2026-05-05"),
        ]:
            with self.subTest(day=day, roll=roll):
                words = f"--calendar {closed} --roll {roll}"
                later = ordinal_of(wanted) - ordinal_of("2026-01-15")
                term = self.term(f"c,{day},Me,Acme,EUR,5", words)
                self.assertEqual(term, f"after({later}, scale(5, pay(EUR, Me, Acme)))")
                coupon = self.term(f"c,{day},Me,Acme,EUR,,Rate,2026-04-25,9,1,4,ceil,,,", words)
                back = ordinal_of(wanted) - ordinal_of("2026-04-25")
                self.assertIn(f"after({later}, ", coupon)
                self.assertIn(f"obs(Rate, -{back})", coupon)
        unmoved = self.term("c,2026-05-02,Me,Acme,EUR,5", f"--calendar {closed}")
        self.assertEqual(unmoved, "after(107, scale(5, pay(EUR, Me, Acme)))")

    def test_faults_name_record_and_field(self) -> None:
        good = "c,20,Me,Acme,EUR,5.00"
        coupon = "c,20,Me,Acme,EUR,,Rate,8,1000,1,4,ceil,,0.01,0.02"
        for row, said in [
            ("c,9,Me,Acme,EUR,5", "date: 2026-01-14 is before the start, 2026-01-15 (day 10, a"),
            ("c,2026-01-14,Me,Acme,EUR,5", "date: 2026-01-14 is before the start"),
            ("c,100011,Me,Acme,EUR,5", "date: it is more than 100,000 days after the start"),
            ("c,6/30/2026,Me,Acme,EUR,5", "date: '6/30/2026' is neither a date YYYY-MM-DD nor"),
            ("c,,Me,Acme,EUR,5", "date: it is missing"),
            (
                "PAM-1,20,Me,Acme,EUR,5",
                "contract: 'PAM-1' is no name of letters, digits and _; perhaps PAM_1",
            ),
            ("let,20,Me,Acme,EUR,5", "contract: 'let' is a word of the language, and no name"),
            ("c,20,Me,Acne,EUR,5", "to: Acne is no declared party; perhaps Acme"),
            ("c,20,me,Acme,EUR,5", "from: me is no declared party; perhaps Me"),
            ("c,20,Me,Acme,GBP,5", "asset: GBP is no declared asset"),
            ("c,20,Me,Acme,EUR,5.001", "amount: 5.001 has 3 decimals, and at most 2 may be here"),
            ("c,20,Me,Acme,JPY,5.0", "amount: 5.0 has 1 decimal, and at most 0 may be here"),
            ('c,20,Me,Acme,EUR,"1,500.00"', "amount: '1,500.00' is no number: write 1500.00"),
            ("c,20,Me,Acme,EUR,+5", "amount: '+5' is no number: write 5"),
            ("c,20,Me,Acme,EUR,.5", "amount: '.5' is no number: write 0.5"),
            ("c,20,Me,Acme,EUR,", "amount: it is missing"),
            ("c,20,Me,Acme,EUR", "it has 5 fields, and the header has 6"),
            (good + ",Rate,,,,,,,,", "label: without a notional there is no coupon"),
            (coupon.replace("EUR,,", "EUR,5,"), "amount: with a notional there is no amount"),
            (coupon.replace("Rate", "F"), "label: F is no declared number that is observed"),
            (coupon.replace("Rate,8", ",8"), "fixing date: without a label the spread is the rate"),
            (coupon.replace("Rate,8", ","), "floor: without a label the spread is the rate"),
            (
                coupon.replace("Rate,8", "Rate,21"),
                "fixing date: it is after the payment, which is on",
            ),
            (coupon.replace("Rate,8", "Rate,"), "fixing date: it is missing"),
            (
                coupon.replace("Rate,8", "Rate,-899981"),
                "fixing date: it is too long before the payment",
            ),
            (coupon.replace("0.01,0.02", "0.03,0.02"), "floor: 0.03 is above the cap 0.02"),
            (coupon.replace(",1,4,", ",1.5,4,"), "numerator: '1.5' is no whole number from 0 on"),
            (coupon.replace(",1,4,", ",1,0,"), "denominator: '0' is no whole number from 1 on"),
            (coupon.replace("ceil", "up"), "mode: up is none of half_even, half_away, floor, ceil"),
            (
                coupon.replace("1000", "1." + "0" * 23),
                "notional: the rate has 5 decimals, and together",
            ),
        ]:
            with self.subTest(said=said):
                is_plain = row.count(",") < 8
                first, header = (good, PLAIN) if is_plain else (good + "," * 9, COUPON)
                ran = self.rows(first, row, header=header)
                self.assertEqual((ran.status, ran.output), (7, ""))
                begins = f"tilugba-desk rows: rows.csv: record 3: {said}"
                self.assertTrue(ran.errors.startswith(begins), ran.errors)
                self.assertEqual(ran.errors.count("\n"), 1)

    def test_what_the_program_refuses_is_told_by_its_record(self) -> None:
        much = "c,20,Me,Acme,EUR," + "9" * 30
        ran = self.rows("c,20,Me,Acme,EUR,5", much, "c,20,Me,Acme,EUR,5", header=PLAIN)
        said = "rows.csv: record 3: amount: the program refuses the payment by the rule bound"
        self.assertEqual((ran.status, ran.output), (1, ""))
        self.assertIn(said, ran.errors)
        many = ["c,20,Me,Acme,EUR,5"] * 25_001
        ran = self.rows("a,20,Me,Acme,EUR,5", *many, header=PLAIN)
        said = "record 3: contract: the program refuses c by the rule size: it has 25,001 payments"
        self.assertEqual((ran.status, ran.output), (1, ""))
        self.assertIn(said, ran.errors)

    def test_other_faults(self) -> None:
        good = "c,20,Me,Acme,EUR,5.00"
        for decls, header, words, status, said in [
            (DECLS, PLAIN + ",label", "", 7, "rows.csv: record 1: the header is contract,date,"),
            (DECLS + "contract c = zero;", PLAIN, "", 6, "decls.txt: it has the contract c, and"),
            (DECLS.replace("EUR,", "EUR;"), PLAIN, "", 6, "decls.txt:6:12: syntax\n"),
            (DECLS.replace("origin 2026-01-05;\n", ""), PLAIN, "--roll following", 7,
             "rows.csv: record 2: date: without an origin no day is a date that --roll may move"),
            (DECLS, PLAIN, "--calendar none --roll following", 3, "none: No such file"),
        ]:  # fmt: skip
            with self.subTest(said=said):
                ran = self.rows(good, header=header, decls=decls, words=words)
                self.assertEqual((ran.status, ran.output), (status, ""))
                self.assertIn(said, ran.errors)
        self.assertEqual(run_desk("rows", self.folder / "decls.txt", "nothing").status, 3)


# ---- random tables


@dataclass
class RandomRows:
    """Random rows over declarations, and what they pay."""

    dice: Any
    decls: Any
    world: dict[Place, Any] = field(default_factory=dict)
    payments: dict[str, list[Any]] = field(default_factory=dict)
    lines: list[str] = field(default_factory=list)

    def number(self, low: int, high: int, decimals: int) -> str:
        places = self.dice.below(decimals + 1)
        return model.decimal(self.dice.between(low, high), places)

    def add(self) -> None:
        dice, decls = self.dice, self.decls
        name, day = dice.one(("a", "b", "c")), decls.start + dice.below(900)
        payer, receiver, asset = (
            dice.one(decls.parties),
            dice.one(decls.parties),
            dice.one(decls.assets),
        )
        decimals = decls.decimals[asset]
        if dice.chance(40):
            amount = self.number(-9_999, 99_999, decimals)
            cells, size = [amount] + [""] * 9, Fraction(amount)
        else:
            cells, size = self.coupon(day, decimals)
        written = model.day_text(decls, day) if dice.chance(50) else str(day)
        self.lines.append(",".join([name, written, payer, receiver, asset, *cells]))
        units = size * 10**27
        assert units.denominator == 1
        self.payments.setdefault(name, []).append((day, asset, payer, receiver, int(units)))

    def coupon(self, day: int, decimals: int) -> tuple[list[str], Fraction]:
        """The fields of a coupon, and what it comes to."""
        dice = self.dice
        notional, spread = self.number(-5_000, 10**7, 2), self.number(-200, 200, 4)
        numerator, denominator = dice.below(400), dice.one((1, 4, 360, 365, 133590))
        mode = dice.one(model.MODES)
        label, fixing, floor, cap = "", "", "", ""
        rate = Fraction(0)
        numbers = [name for name, label in self.decls.labels if label is not None]
        if numbers and dice.chance(60):
            label, fixed = dice.one(numbers), day - dice.below(400)
            fixing = model.day_text(self.decls, fixed) if dice.chance(50) else str(fixed)
            value = self.world.setdefault(
                (label, fixed), makers.some_value(dice, self.decls.label[label])
            )
            rate = Fraction(value, 10**27)
            floor, cap = (self.number(-30, 30, 2) if dice.chance(30) else "" for _ in range(2))
            if floor and cap and Decimal(floor) > Decimal(cap):
                floor, cap = cap, floor
            rate = max(rate, Fraction(floor)) if floor else rate
            rate = min(rate, Fraction(cap)) if cap else rate
            spread = dice.one((spread, ""))
        rate += Fraction(spread or 0)
        top = rate * Fraction(notional) * numerator * 10**decimals
        exact = Fraction(top.numerator, top.denominator * denominator)
        size = Fraction(model.quotient(mode, exact.numerator, exact.denominator), 10**decimals)
        cells = [
            "",
            label,
            fixing,
            notional,
            str(numerator),
            str(denominator),
            mode,
            spread,
            floor,
            cap,
        ]
        return cells, size

    def flow_lines(self) -> str:
        """What `flows` has to print."""
        tables = {name: model.table(self.decls, paid) for name, paid in self.payments.items()}
        return "".join(model.flow_lines(self.decls, name, rows) for name, rows in tables.items())


class RandomTables(Room):
    def test_flows_are_what_the_rows_say(self) -> None:
        rows = 0
        for seed in range(1, TABLES + 1):
            dice = makers.Dice(seed)
            some = RandomRows(dice, makers.some_decls(dice))
            for _ in range(dice.between(1, 40)):
                some.add()
            decls = self.file("decls.txt", model.decls_text(some.decls))
            table = self.file("rows.csv", "\n".join([COUPON, *some.lines]) + "\n")
            ran = run_desk("rows", decls, table)
            with self.subTest(seed=seed):
                self.assertEqual((ran.status, ran.errors), (0, ""))
                fixings = makers.table_text(dice, some.decls, some.world).encode()
                flows = the_program().run("flows", ran.output.encode(), fixings).expected().decode()
                self.assertEqual(flows, some.flow_lines())
            rows += len(some.lines)
        self.assertGreater(rows, 10 * TABLES)
        if "TILUGBA_TABLES" in os.environ:
            print(f"{TABLES} tables with {rows} rows")


class Moving(unittest.TestCase):
    def test_moved_days_are_open_and_no_other_is_nearer(self) -> None:
        dice = makers.Dice(1)
        first = date(2026, 1, 1).toordinal()
        for _ in range(300):
            days = BusinessDays(frozenset(first + dice.below(60) for _ in range(dice.below(25))))
            day = first + dice.between(5, 45)
            following, modified, preceding = (days.rolled(day, it) for it in Roll)
            with self.subTest(day=date_text(day), holidays=sorted(map(str, days.holidays))):
                self.assertTrue(preceding <= day <= following)
                self.assertTrue(all(map(days.is_open, (following, modified, preceding))))
                between = [*range(preceding + 1, day), *range(day + 1, following)]
                self.assertFalse(any(map(days.is_open, between)))
                same_month = date.fromordinal(following).month == date.fromordinal(day).month
                self.assertEqual(modified, following if same_month else preceding)


if __name__ == "__main__":
    unittest.main()
