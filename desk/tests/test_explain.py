"""Explanations: of texts, refusals, tables, missing fixings, words, files; and that a run that ends
with 0 goes through.
"""

from __future__ import annotations

import os
import subprocess
import sys
import unittest

from tests.support import CASES, DESK, Ran, Room, run_desk, the_program
from tests.texts import CODE, examples
from tilugba.explanations.missing import is_out_of_reach
from tilugba.explanations.notes import shown
from tilugba.texts.grammar import PORTFOLIO
from tilugba.texts.reading import Reading
from tilugba.texts.reads import reads_of
from tilugba.texts.tokens import Place, Source

HEAD = """portfolio 1;
amounts 2;
origin 2026-01-05;
party Me, Acme;
asset EUR;
num EURUSD : 4 in 0.5000 .. 2.0000;
flag F;
"""
EMPTY = "label,day,value\n"


class Explained(Room):
    """Runs of `explain` on a book of these declarations."""

    def explain(self, text: str, *words: str, command: str = "check") -> Ran:
        path = self.file("book.txt", text)
        ran = run_desk("explain", command, path, *words)
        return Ran(ran.status, ran.output, ran.errors.replace(f"{self.folder}/", ""))

    def table(self, rows: str, header: str = EMPTY, book: str = HEAD) -> Ran:
        path = self.file("fix.csv", header + rows)
        return self.explain(book, str(path), command="flows")

    def check_all(self, cases: list[tuple[str, str, str]], run: object) -> None:
        """Each case has a text, the place and kind with which the explanation begins, and a part of
        it.
        """
        for text, place, said in cases:
            with self.subTest(text=text):
                ran = run(text)
                self.assertTrue(ran.errors.startswith(place), ran.errors)
                self.assertIn(said, ran.errors)
                self.assertNotEqual(ran.status, 0)
                self.assertNotIn("Traceback", ran.errors)


class Texts(Explained):
    def test_declarations(self) -> None:
        def run(line: str) -> Ran:
            return self.explain("portfolio 1;\namounts 2;\nparty Me;\nasset EUR;\n" + line)

        self.check_all(
            [
                (
                    "num FX 4 in 0.5 .. 2;",
                    "book.txt:5:8: syntax",
                    "num FX : 4 in 0.5000 .. 2.0000;",
                ),
                (
                    "num FX : 4 in 0,5 .. 2;",
                    "book.txt:5:16: syntax",
                    "a point stands before decimals: 0.5",
                ),
                (
                    "num FX : 4 in 0.5 - 2;",
                    "book.txt:5:19: syntax",
                    "two points stand between the bounds",
                ),
                ("num FX : 4 in 2 .. 1;", "book.txt:5:20: range", "from 2.0000 on"),
                ("num FX : 4 in 0.00001 .. 1;", "book.txt:5:15: range", "at most 4 decimals"),
                ("flag pay;", "book.txt:5:6: syntax", "`pay` is a word of the language"),
                ("flag 3M;", "book.txt:5:6: syntax", "a name does not begin with a digit: _3M"),
                ("flag Müller;", "book.txt:5:7: syntax", "`ü` is none"),
                (
                    "flag " + "a" * 65 + ";",
                    "book.txt:5:6: syntax",
                    "a name has at most 64 characters",
                ),
                ("flag A B;", "book.txt:5:8: syntax", "a name has no blank: A_B"),
                ("flag A-B;", "book.txt:5:7: syntax", "digits and `_`: A_B"),
                ("flag F; flag F;", "book.txt:5:14: twice", "F is declared in line 5 already"),
                (
                    "party X;",
                    "book.txt:5:1: syntax",
                    "the order is amounts origin start party asset",
                ),
                ("Flag F;", "book.txt:5:1: syntax", "is `flag` meant?"),
                ("template T = 100001;", "book.txt:5:14: number", "from 0 to 100000"),
                ("flag F\nflag G;", "book.txt:6:1: syntax", "a `;` is missing behind `F`"),
                (
                    "flag F // a comment",
                    "book.txt:5:8: syntax",
                    "a comment begins with #, not with //",
                ),
            ],
            run,
        )
        second = HEAD.replace("asset EUR;", "asset EUR : 2;")
        self.check_all(
            [(second, "book.txt:5:11: syntax", "begin the text with portfolio 2;")], self.explain
        )
        self.check_all(
            [("portfolio 3;", "book.txt:1:11: syntax", "the versions are 1 and 2")], self.explain
        )
        late = "portfolio 1; amounts 2; origin 2026-02-30;"
        self.check_all([(late, "book.txt:1:32: date", "is no date from 1900-01-01")], self.explain)

    def test_contracts(self) -> None:
        def run(term: str) -> Ran:
            return self.explain(HEAD + "contract c =\n" + term)

        pay = "pay(EUR, Acme, Me)"
        self.check_all(
            [
                (
                    f"scale(12,500.00, {pay});",
                    "book.txt:9:10: syntax",
                    "no marks between thousands: 12500.00",
                ),
                (
                    f"scale(1,5, {pay});",
                    "book.txt:9:9: syntax",
                    "a point stands before decimals: 1.5",
                ),
                (
                    f"scale(.98, {pay});",
                    "book.txt:9:7: syntax",
                    "a digit stands before the point: 0.98",
                ),
                (f"scale(5., {pay});", "book.txt:9:8: syntax", "5 or 5.0"),
                (f"scale(+5, {pay});", "book.txt:9:7: syntax", "a number has no plus: 5"),
                (f"scale(1e5, {pay});", "book.txt:9:8: syntax", "no exponent"),
                (f"scale(5 %, {pay});", "book.txt:9:9: syntax", "write 5 % as 0.05"),
                (
                    f"after(2026-06-30, {pay});",
                    "book.txt:9:7: syntax",
                    "2026-06-30 is 176 days later",
                ),
                (
                    f"after(3, after(2026-06-30, {pay}));",
                    "book.txt:9:16: syntax",
                    "less the days of each `after`",
                ),
                (
                    "if obs(EURUSD, 0) > 1.1750 within 0 then zero else zero;",
                    "book.txt:9:19: syntax",
                    "(obs(EURUSD, 0) > 1.1750)",
                ),
                (
                    "if (obs(EURUSD, 0) > 1.1750) then zero else zero;",
                    "book.txt:9:30: syntax",
                    "if E within 0 then",
                ),
                ("if obs(F, 0) within 0 then zero;", "book.txt:9:32: syntax", "perhaps else zero"),
                (f"scale((1 + 2 + 3), {pay});", "book.txt:9:14: syntax", "((1 + 2) + 3)"),
                (f"scale((3.00 / 2), {pay});", "book.txt:9:13: syntax", "div(half_even, 2, a, b)"),
                (
                    "pay(5.00, EUR, Acme, Me);",
                    "book.txt:9:5: syntax",
                    "scale(5.00, pay(ASSET, PAYER, RECEIVER))",
                ),
                ("both(zero, zero, zero);", "book.txt:9:16: syntax", "both(a, both(b, c))"),
                (f"scale(EURUSD, {pay});", "book.txt:9:7: unknown", "obs(EURUSD, 0)"),
                ("scale(obs(EURSD, 0), zero);", "book.txt:9:11: unknown", "is EURUSD meant?"),
                ("pay(Me, EUR, Acme);", "book.txt:9:5: unknown", "Me is a party"),
                (
                    "if (obs(F, 0) and obs(F, 0)) within 0 then zero else zero;",
                    "book.txt:9:15: syntax",
                    "`and` is written &",
                ),
                (
                    "if (1 == 1.1) within 0 then zero else zero;",
                    "book.txt:9:8: syntax",
                    "`==` is written =",
                ),
                (
                    f"scale(5, {pay};",
                    "book.txt:9:28: syntax",
                    "a `)` is missing: `scale` of line 9, column 1 is open",
                ),
                (f"scale(5, {pay}));", "book.txt:9:29: syntax", "there is a `)` too many"),
                ("scal(5, zero);", "book.txt:9:1: syntax", "is `scale` meant?"),
                ("after(3 + 4, zero);", "book.txt:9:9: syntax", "begin the text with portfolio 2;"),
                ("both(" * 200 + "zero;", "book.txt:9:1001: deep", "as a balanced tree"),
                ("zero", "book.txt:9:5: syntax", "a `;` is missing behind `zero`"),
                (
                    "zero; contract c = zero;",
                    "book.txt:9:16: twice",
                    "c is declared in line 8 already",
                ),
            ],
            run,
        )

    def test_a_first_deal(self) -> None:
        """A trader's first option, as one writes it who has read no page. What to type is in each
        explanation, word for word, and with that alone the deal is accepted.
        """
        deal = """portfolio 1;
amounts 2;
origin 2026-01-05;
party Me, Acme Bank;
asset USD;
num EURUSD : 4 in 0.5 .. 2.0;
contract call = both(
  scale(12,500.00, pay(USD, Me, Acme_Bank)),
  after(2026-06-30, if obs(EURUSD, 0) > 1.1750 then
    scale((obs(EURUSD, 0) - 1.1750) * 1000000, pay(USD, Acme_Bank, Me))));
"""
        steps = [
            # Where the fault is, what is taken out, and what is typed in its place.
            ("4:16: syntax", "Acme Bank", "Acme_Bank"),
            ("8:12: syntax", "12,500.00", "12500.00"),
            ("9:9: syntax", "2026-06-30", "176"),
            ("9:32: syntax", "obs(EURUSD, 0) > 1.1750", "(obs(EURUSD, 0) > 1.1750)"),
            ("9:43: syntax", "then", "within 0 then"),
            (
                "10:37: syntax",
                "(obs(EURUSD, 0) - 1.1750) * 1000000",
                "((obs(EURUSD, 0) - 1.1750) * 1000000)",
            ),
            ("10:74: syntax", "Me))));", "Me)) else zero));"),
            (
                "10:5: call is refused by the rule scale",
                "scale(((obs",
                "scale(round(half_even, 2, ((obs",
            ),
            (
                "10:68: syntax",
                "), pay(USD, Acme_Bank, Me)) else",
                ")), pay(USD, Acme_Bank, Me)) else",
            ),
        ]
        typed = {
            steps[6][2]: "else zero",
            steps[7][2]: "round(half_even, 2,",
            steps[8][2]: "a `)` is missing before this comma",
        }
        for place, old, new in steps:
            ran = self.explain(deal)
            self.assertTrue(ran.errors.startswith(f"book.txt:{place}"), (place, ran.errors))
            self.assertIn(typed.get(new, new), ran.errors)
            self.assertEqual(deal.count(old), 1, old)
            deal = deal.replace(old, new)
        self.assertEqual(
            self.explain(deal),
            Ran(0, "call accepted start 0 scale 2 total 837500.00 horizon 177\n", ""),
        )

    def test_files_of_another_kind(self) -> None:
        book = HEAD + "contract c = zero;"
        for data, place, said in [
            (
                b"\xef\xbb\xbf" + book.encode(),
                "book.txt:1:1: syntax",
                "save it as UTF-8 without one",
            ),
            (book.encode("utf-16"), "book.txt:1:1: utf8", "the file is UTF-16"),
            (
                b"# M\xfcller\n" + book.encode(),
                "book.txt:1:4: utf8",
                "another encoding, such as Latin-1",
            ),
            (EMPTY.encode(), "book.txt:1:1: syntax", "this is a table"),
            (
                b"payoff 1;",
                "book.txt:1:1: syntax",
                "this is a code file, and the command takes a portfolio",
            ),
        ]:
            with self.subTest(data=data[:20]):
                path = self.file("book.txt", data)
                errors = run_desk("explain", "check", path).errors.replace(f"{self.folder}/", "")
                self.assertTrue(errors.startswith(place), errors)
                self.assertIn(said, errors)

    def test_a_long_line_is_shown_in_part(self) -> None:
        line = b"#" + "é".encode() * 300 + b" here " + b"x" * 300
        told = list(shown(Source(line), Place(1, 603)))
        self.assertLess(max(map(len, told)), 140)
        self.assertEqual(told[0][told[1].index("^")], "h")


class Refusals(Explained):
    def test_the_rules(self) -> None:
        def run(term: str) -> Ran:
            ran = self.explain(HEAD + "contract d = zero;\ncontract c =\n" + term)
            self.assertIn("c refused ", ran.output)
            self.assertIn("d accepted ", ran.output)
            return ran

        pay = "pay(EUR, Acme, Me)"
        bond = f"let x = round(half_even, 2, obs(EURUSD, 30)) in after(29, scale(x, {pay}));"
        self.check_all(
            [
                (
                    f"scale(obs(F, 0), {pay});",
                    "book.txt:10:1: c is refused by the rule sort",
                    "F is a flag; a number is asked for",
                ),
                (
                    "if obs(EURUSD, 0) within 1 then zero else zero;",
                    "book.txt:10:1: c is",
                    "a truth value is asked for",
                ),
                (
                    f"scale(if(true, 1, false), {pay});",
                    "book.txt:10:7: c is",
                    "1 is a number and false is a truth value",
                ),
                (
                    f"scale(round(half_even, 2, obs(EURUSD, 1)), {pay});",
                    "book.txt:10:1: c is",
                    "reads EURUSD 1 day after the day",
                ),
                (
                    bond,
                    "book.txt:10:59: c is refused by the rule time",
                    "what x stands for is known only later",
                ),
                (
                    f"scale(12.505, {pay});",
                    "book.txt:10:1: c is",
                    "12.505 has 3 decimals; amounts have 2, EUR has 2",
                ),
                (
                    f"scale(0.5, scale(1.25, {pay}));",
                    "book.txt:10:1: c is",
                    "together that is 3 decimals",
                ),
                (
                    f"scale(widen(2, 1.505), {pay});",
                    "book.txt:10:7: c is",
                    "`widen` goes to 2 decimals, which is fewer",
                ),
                (
                    f"after(100000, after(1, {pay}));",
                    "book.txt:10:1: c is",
                    "100,001 days of `after`",
                ),
                (
                    f"scale(div(floor, 2, 1, (obs(EURUSD, 0) - 1)), {pay});",
                    "book.txt:10:7: c is",
                    "EURUSD is from 0.5000 to 2.0000",
                ),
                (
                    f"scale(div(floor, 2, 1, obs(EURUSD, 5)), {pay});",
                    "book.txt:10:1: c is refused by the rule time",
                    "5 days after",
                ),
            ],
            run,
        )

    def test_other_commands_name_the_first(self) -> None:
        ran = self.explain(HEAD + "contract c = scale(true, zero);", command="flows")
        self.assertEqual((ran.status, ran.output), (1, ""))
        self.assertTrue(ran.errors.startswith("book.txt:8:14: c is refused by the rule sort"))

    def test_plans_and_code(self) -> None:
        head = "schedules 1; amounts 2; party A, B; asset EUR;\n"
        ran = self.explain(
            head + "leg a = 1.005 of EUR from A to B first 0 every 30 times 2;", command="expand"
        )
        self.assertTrue(
            ran.errors.startswith("book.txt:2:5: a is refused by the rule scale"), ran.errors
        )
        self.assertIn("a size or the cover has more decimals than amounts", ran.errors)
        code = self.file(
            "c.code",
            "payoff 1; amounts 2; party A; asset E;\ncode c = scale(1.005, pay(0, E, A, A));",
        )
        tables = [self.file("fix.csv", EMPTY), self.file("curve.csv", "offset,factor\n0,1\n")]
        ran = run_desk(
            "explain",
            "value",
            code,
            *tables,
            "--at",
            "0",
            "--from",
            "A",
            "--to",
            "A",
            "--asset",
            "E",
        )
        self.assertIn("c.code:2:10: c is refused by the rule scale", ran.errors)

    def code(self, text: str, *settings: str) -> Ran:
        """What is said of code, at these numbers of its templates."""
        head = (
            "payoff 1; amounts 2; party A, B; asset E; num FX : 4 in 0.5000 .. 2.0000; flag F; "
            "template T = 5;\ncode c =\n"
        )
        code, curve = self.file("c.code", head + text), self.file(
            "curve.csv", "offset,factor\n0,1\n"
        )
        pair = ("--at", "0", "--from", "A", "--to", "B", "--asset", "E")
        ran = run_desk(
            "explain", "value", code, self.file("fix.csv", EMPTY), curve, *settings, *pair
        )
        return Ran(ran.status, ran.output, ran.errors.replace(f"{self.folder}/", ""))

    def test_the_rules_on_code(self) -> None:
        """Code has limits of its own, which are asked at the numbers that the run gives its
        templates.
        """
        loops = (
            "loop (model(FX, 0) > 1.0) upto 99990 then loop model(F, 0) upto {} then none else "
            "none else none;"
        )
        self.check_all(
            [
                (
                    "scale(1.005, pay(0, E, A, B));",
                    "c.code:3:1: c is refused by the rule scale",
                    "1.005 has 3 decimals; amounts have 2\n",
                ),
                (
                    loops.format(11),
                    "c.code:3:1: c is refused by the rule size",
                    "100,001 days of `loop` added up along a path; the limit is 100,000",
                ),
                (
                    "pay(1999998 + T, E, A, B);",
                    "c.code:3:1: c is",
                    "the date of `pay` is 2,000,003; it is from -2,000,000 to 2,000,000",
                ),
                ("cut(1999998 + T, none);", "c.code:3:1: c is", "the date of `cut` is 2,000,003"),
                (
                    "loop model(F, 0) upto 99999 + T then none else none;",
                    "c.code:3:1: c is",
                    "the date of `loop` is 100,004; it is from 0 to",
                ),
                (
                    "scale(round(floor, 2, model(FX, 1999999 + T)), none);",
                    "c.code:3:23: c is",
                    "the date of `model` is 2,000,004",
                ),
                (
                    "scale(10000000000000000000000000000.00, pay(0, E, A, B));",
                    "c.code:3:1: c is",
                    "code is worth at most 10^37",
                ),
            ],
            self.code,
        )
        self.assertEqual(self.code(loops.format(10)).status, 8)
        at_setting = (
            "loop model(F, 0) upto 0 + T then loop model(F, 0) upto 1 then none else none else "
            "none;"
        )
        self.assertEqual(
            (self.code(at_setting).status, self.code(at_setting, "T=99999").status), (8, 8)
        )
        self.assertIn("100,001 days of `loop`", self.code(at_setting, "T=100000").errors)

    def test_the_steps_of_code(self) -> None:
        """The steps that are told pass the limit just where the program refuses."""
        refused = set()
        for days in range(3_327, 3_334):
            ran = self.code(
                f"loop (acc(x, (x + model(FX, 0)), 1000, 0.0000) > 1.0) upto {days} then none else "
                "none;"
            )
            self.assertEqual(ran.status == 1, "steps to evaluate" in ran.errors, ran.errors)
            refused.add(ran.status == 1)
        self.assertEqual(refused, {True, False})


class Tables(Explained):
    def test_rows(self) -> None:
        self.check_all(
            [
                (
                    "GBPUSD,5,1\n",
                    "fix.csv:2:1: label (record 2)",
                    "label GBPUSD is not declared in book.txt; declared are EURUSD and F",
                ),
                ("EURSD,5,1\n", "fix.csv:2:1: label (record 2)", "is EURUSD meant?"),
                (
                    "EURUSD,6/30/2026,1\n",
                    "fix.csv:2:8: day (record 2)",
                    "write the date as 2026-06-30",
                ),
                ("EURUSD,1/2/2026,1\n", "fix.csv:2:8: day (record 2)", "2026-01-02 or 2026-02-01"),
                ("EURUSD, 5,1\n", "fix.csv:2:8: day (record 2)", "blanks count"),
                ("EURUSD,2026-02-30,1\n", "fix.csv:2:8: day (record 2)", "there is no such date"),
                (
                    'EURUSD,5,"1,16"\n',
                    "fix.csv:2:1: value (record 2)",
                    "a point stands before decimals: 1.16",
                ),
                (
                    "EURUSD,5,+1.16\n",
                    "fix.csv:2:10: value (record 2)",
                    "a number has no plus: 1.16",
                ),
                ("EURUSD,5,.98\n", "fix.csv:2:10: value (record 2)", "0.98"),
                (
                    "EURUSD,5,1.16667\n",
                    "fix.csv:2:10: value (record 2)",
                    "1.16667 has 5 decimals, and EURUSD has at most 4",
                ),
                ("EURUSD,5,NaN\n", "fix.csv:2:10: value (record 2)", "leave it out"),
                ("F,5,TRUE\n", "fix.csv:2:5: value (record 2)", "write true"),
                ("F,5,yes\n", "fix.csv:2:5: value (record 2)", "write true"),
                (
                    "EURUSD,5,9\n",
                    "fix.csv:2:10: bounds (record 2)",
                    "EURUSD is declared in book.txt from 0.5000 to 2.0000",
                ),
                (
                    "EURUSD,5,1\n\nEURUSD,5,2\n",
                    "fix.csv:4:10: conflict (record 3)",
                    "line 2, EURUSD,5,1",
                ),
                ("EURUSD,5,1,\n", "fix.csv:2:1: shape (record 2)", "there are 4 fields"),
                ("# EURUSD\n", "fix.csv:2:1: shape (record 2)", "a table has no comments"),
                ("EURUSD;5;1\n", "fix.csv:2:1: shape (record 2)", "not semicolons"),
                ('EURUSD,5,"1\n', "fix.csv:2:1: value (record 2)", "is no number"),
            ],
            self.table,
        )
        bare = self.table("EURUSD,2026-01-05,1\n", book=HEAD.replace("origin 2026-01-05;", ""))
        self.assertIn("2026-01-05 is a date, and book.txt has no origin", bare.errors)

    def test_headers(self) -> None:
        for header, said in [
            ("label;day;value\n", "not semicolons"),
            ("Label,Day,Value\n", "in small letters"),
            ("label,day,value,source\n", "leave out what stands behind: source"),
            ("day,label,value\n", "in another order"),
            ("offset,factor\n", "this is a table of offset,factor"),
            ("EURUSD,5,1\n", "the header is missing"),
            (HEAD, "this is a text and no table"),
            ("", "the table is empty"),
        ]:
            with self.subTest(header=header):
                ran = self.table("", header)
                self.assertIn("shape (record 1)", ran.errors)
                self.assertIn(said, ran.errors)

    def test_curves_and_sets(self) -> None:
        code = self.file("c.code", "payoff 1; amounts 2; party A; asset E; flag F;\ncode c = none;")
        words = ["--at", "0", "--from", "A", "--to", "A", "--asset", "E"]
        for rows, said in [
            ("-1,1\n", "'-1' is no number of days"),
            ("0,11\n", "is no factor"),
            ("1,1\n", "the first offset has to be 0"),
            ("0,1\n9,1\n9,1\n", "offset 9 is not above 9"),
            ("", "there is no record below offset,factor"),
        ]:
            curve = self.file("curve.csv", "offset,factor\n" + rows)
            ran = run_desk("explain", "value", code, self.file("fix.csv", EMPTY), curve, *words)
            self.assertIn(said, ran.errors)
        curve = self.file("curve.csv", "offset,factor\n0,1\n")
        for rows, said in [
            ("up 1,F,0,true\n", "is no name of a scenario"),
            ("*,F,0,true\n", "there is no scenario"),
        ]:
            table = self.file("set.csv", "scenario,label,day,value\n" + rows)
            ran = run_desk("explain", "scenarios", code, table, curve, *words, "--mean", "floor")
            self.assertEqual(ran.status, 7)
            self.assertIn(said, ran.errors)


class Missing(Explained):
    BOOK = HEAD + "".join(
        f"contract {name} = after({days}, scale(round(half_even, 2, obs(EURUSD, 0)), pay(EUR, Me, "
        "Acme)));\n"
        for name, days in [("first", 6), ("second", 6), ("third", 7)]
    )

    def test_date_weekday_and_contracts(self) -> None:
        ran = self.explain(self.BOOK, command="flows")
        self.assertEqual((ran.status, ran.output), (8, ""))
        said = (
            "book.txt: missing fixing of EURUSD on 2026-01-11 (day 6, a Sunday), read by first and "
            "second"
        )
        self.assertEqual(ran.errors.splitlines()[0], said)
        self.assertIn("EURUSD,2026-01-11,1.0000", ran.errors)
        self.assertIn("tilugba-desk fill-days", ran.errors)

    def test_serial_dates(self) -> None:
        ran = self.table("EURUSD,46027,1.16\n", book=self.BOOK)
        self.assertIn(
            "record 2 has day 46027, which is 2026-01-05 as spreadsheets number days", ran.errors
        )

    def test_advance_and_many(self) -> None:
        table = self.file("fix.csv", EMPTY)
        ran = self.explain(self.BOOK, str(table), "--to", "2026-01-12", command="advance")
        self.assertIn("read by first and second", ran.errors)
        many = HEAD + "".join(
            f"contract c{it} = scale(round(half_even, 2, obs(EURUSD, 0)), pay(EUR, Me, Acme));\n"
            for it in range(40)
        )
        self.assertIn(
            "which may be read by c0, c1, c2, c3, c4, c5 and others",
            self.explain(many, command="flows").errors,
        )

    def test_what_can_be_seen_to_read_nothing(self) -> None:
        """Of no contract of the examples is it said that it reads nothing on a day on which by its
        parsed text it may read something; and of most days on which it reads nothing it is said.
        """
        seen = unseen = 0
        for example in examples():
            reading = Reading(example.data, example.grammar)
            if example.grammar is not PORTFOLIO or reading.fault:
                continue
            for number in reading.defined.values():
                reads = [
                    days
                    for _, days in reads_of(reading.read(number).statement.term, reading.declared)
                ]
                for day in range(-5, 400):
                    is_read, is_out = any(it.have(day) for it in reads), is_out_of_reach(
                        reading.slice(number), day
                    )
                    self.assertFalse(is_read and is_out, (example.name, number, day))
                    seen, unseen = seen + is_out, unseen + (not is_read and not is_out)
        self.assertGreater(seen, 10_000)
        self.assertGreater(seen, unseen)
        for text in (
            "c = after(9 + T, x)",
            "c = after(9, x) # = after(99,",
            "c = if x within T then",
            "c = after(3, acc(x, y, 4, 1))",
        ):
            self.assertFalse(any(is_out_of_reach(text, day) for day in range(100)), text)

    def test_code_and_scenarios(self) -> None:
        book = self.file("book.txt", self.BOOK)
        code = self.file(
            "c.code", the_program().run("payoff", book, "--contract", "first").expected()
        )
        table = self.file("set.csv", "scenario,label,day,value\nup,EURUSD,0,1\n")
        curve = self.file("curve.csv", "offset,factor\n0,1\n")
        words = ["--at", "0", "--from", "Me", "--to", "Acme", "--asset", "EUR", "--mean", "floor"]
        ran = run_desk("explain", "scenarios", code, table, curve, *words)
        self.assertIn(
            "missing fixing of EURUSD on 2026-01-11 (day 6, a Sunday) in the scenario up",
            ran.errors,
        )


class Others(Explained):
    BOOK = HEAD + "contract c = zero;\n"

    def test_words(self) -> None:
        between = ["--at", "0", "--from", "A", "--to", "B"]
        ran = run_desk("explain", "value", "c.code", "fix.csv", "curve.csv", *between)
        self.assertEqual(ran.status, 2)
        form = "value CODE FIX CURVE [T=N].. --at DAY --from P --to Q --asset A"
        self.assertEqual(ran.errors, f"value: --asset is missing; the command is `{form}`\n")
        self.assertEqual(
            run_desk("explain", "chekc", "x").errors,
            "tilugba: there is no command chekc; perhaps check\n",
        )
        self.assertIn("a command is missing", run_desk("explain").errors)

    def test_names_and_days(self) -> None:
        self.assertIn(
            "there is no contract d; contracts: c",
            self.explain(self.BOOK, "--contract", "d", command="payoff").errors,
        )
        ran = self.explain(self.BOOK, "--until", "2025-12-01", command="flows")
        self.assertIn(
            "2025-12-01 is out of range: days go from the start, 2026-01-05 (day 0, a Monday)",
            ran.errors,
        )
        bare = self.BOOK.replace("origin 2026-01-05;", "")
        self.assertIn(
            "the text has no origin",
            self.explain(bare, "--until", "2026-01-05", command="flows").errors,
        )

    def test_files(self) -> None:
        self.file("book.txt", self.BOOK)
        ran = run_desk("explain", "check", self.folder / "boook.txt")
        self.assertEqual(ran.status, 3)
        self.assertIn("there is no such file; perhaps book.txt", ran.errors)
        self.assertIn("it is a folder", run_desk("explain", "check", self.folder).errors)
        long = self.file("long.txt", b" " * 16_777_217)
        ran = run_desk("explain", "check", long)
        self.assertEqual((ran.status, ran.errors.count("\n")), (5, 1))
        self.assertIn("more than 16,777,216 bytes", ran.errors)

    def test_what_ends_with_0_goes_through(self) -> None:
        book = CASES / "option" / "option.txt"
        table = CASES / "option" / "fixings.csv"
        wanted = (CASES / "option" / "output").read_text()
        self.assertEqual(run_desk("explain", "flows", book, table), Ran(0, wanted, ""))

    def test_a_pipe_is_read_once(self) -> None:
        script = f"{sys.executable} {DESK}/tilugba-desk explain check <(echo 'portfolio 4;')"
        ran = subprocess.run(["bash", "-c", script], capture_output=True, text=True, env=os.environ)
        self.assertEqual(ran.returncode, 6)
        self.assertIn("the versions are 1 and 2", ran.stderr)

    def test_a_program_that_is_killed_or_missing(self) -> None:
        killed = self.script("killed", "#!/bin/sh\nkill -9 $$\n")
        ran = run_desk("explain", "--program", killed, "check", "x")
        self.assertEqual((ran.status, ran.output), (137, ""))
        self.assertEqual(
            ran.errors, f"tilugba-desk explain: {killed} was killed by signal SIGKILL\n"
        )
        slow = self.script("slow", "#!/bin/sh\nexec sleep 60\n")
        ran = run_desk("explain", "--program", slow, "--seconds", "0.1", "check", "x")
        self.assertEqual((ran.status, ran.errors.count("\n")), (70, 1))
        ran = run_desk("explain", "--program", self.folder / "none", "check", "x")
        self.assertEqual((ran.status, ran.errors.count("\n")), (70, 1))


if __name__ == "__main__":
    unittest.main()
