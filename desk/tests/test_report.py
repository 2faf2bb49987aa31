"""The page of a report: well formed, of itself alone, with the amounts that the program prints."""

import re
import shutil
import subprocess
import unittest
from collections import defaultdict
from decimal import Decimal
from html.parser import HTMLParser

from tests.member import Member
from tests.support import Ran, Room, run_desk, the_program

BOOK = """portfolio 1; amounts 2; origin 2026-01-05; party Me, Acme, Other; asset EUR, USD;
num FX : 4 in 0.5000 .. 2.0000; flag Gone;
contract loan = both(scale(1000.00, pay(EUR, Me, Acme)),
  after(40, scale(1050.00, pay(EUR, Acme, Me))));
contract call = after(10, if ((obs(FX, 0) > 1.1750) & not(obs(Gone, 0))) within 0
  then scale(round(half_even, 2, (obs(FX, 0) * 100.00)), pay(USD, Acme, Me)) else zero);
contract old = scale(5.00, pay(EUR, Other, Me));
"""
TABLE = "label,day,value\nFX,2026-01-08,1.2000\nGone,2026-01-08,false\n"
CURVE = "offset,factor\n0,1\n5,0.5\n"
VOID = {"meta", "rect", "line", "polyline"}


class Page(HTMLParser):
    """A page as it is read: its elements are closed in order, and its texts are kept by element."""

    def __init__(self, text: str) -> None:
        super().__init__()
        self.open: list[str] = []
        self.texts: dict[str, list[str]] = defaultdict(list)
        self.rows: list[list[str]] = []
        self.links: list[str] = []
        self.feed(text)
        self.close()
        if self.open:
            raise AssertionError(f"{self.open} is not closed")

    def handle_starttag(self, tag: str, attrs: list[tuple[str, str | None]]) -> None:
        self.links += [value or "" for name, value in attrs if name in ("href", "src")]
        if tag == "tr":
            self.rows.append([])
        if tag not in VOID:
            self.open.append(tag)

    def handle_startendtag(self, tag: str, attrs: list[tuple[str, str | None]]) -> None:
        pass

    def handle_endtag(self, tag: str) -> None:
        if self.open.pop() != tag:
            raise AssertionError(f"{tag} is closed out of order")

    def handle_data(self, data: str) -> None:
        if self.open and self.open[-1] in ("td", "th"):
            self.rows[-1].append(data)
        if self.open:
            self.texts[self.open[-1]].append(data)


class Reports(Room):
    def report(self, book: str, table: str, curve: str | None, *words: str) -> Ran:
        files = [self.file("book.txt", book), self.file("fix.csv", table)]
        files += [] if curve is None else [self.file("curve.csv", curve)]
        return run_desk("report", *files, *words)

    def page(self, book: str, table: str, curve: str | None, *words: str) -> tuple[str, Page]:
        ran = self.report(book, table, curve, *words)
        self.assertEqual((ran.status, ran.errors), (0, ""))
        return ran.output, Page(ran.output)

    def test_parts(self) -> None:
        text, page = self.page(BOOK, TABLE, CURVE)
        parts = [
            "What was due, and what is due",
            "What will be needed",
            "Values and exposures",
            "The contracts",
            "Receipt",
        ]
        self.assertEqual(page.texts["h2"], parts)
        self.assertEqual(page.texts["h1"], ["book.txt, 2026-01-08"])
        self.assertEqual(page.texts["h3"], ["loan", "call", "old"])
        self.assertIn(["2026-01-15 (day 10, a Thursday)", "FX", "call"], page.rows)
        # 1,050.00 at half its amount, and 120.00 at the same factor.
        self.assertIn(["loan", "Me", "Acme", "EUR", "-525.00000000000"], page.rows)
        self.assertIn(["call", "Me", "Acme", "USD", "-60.00000000000"], page.rows)
        self.assertIn(["Acme", "EUR", "525.00000000000"], page.rows)
        self.assertIn("Nothing is left of it on 2026-01-08.", page.texts["p"])
        self.assertIn(
            "It is accepted. It pays from 2026-01-15 on, at most 200.00 in all,"
            " and nothing from 2026-01-16 on.",
            page.texts["p"],
        )
        self.assertEqual(self.page(BOOK, TABLE, None)[1].texts["h2"], [*parts[:2], *parts[3:]])

    def test_months(self) -> None:
        rows = self.page(
            BOOK, TABLE + "FX,2026-01-15,1.25\nGone,10,false\n", None, "--at", "2026-01-09"
        )[1].rows
        self.assertIn(["2026-01 was due", "-995.00", "1,000.00", "-5.00"], rows)
        self.assertIn(["2026-02 due", "1,050.00", "-1,050.00", "–"], rows)
        self.assertIn(["2026-01 due", "125.00", "-125.00"], rows)

    def test_nothing_is_asked_of_a_host(self) -> None:
        text, page = self.page(BOOK, TABLE, CURVE)
        self.assertEqual(
            set(re.findall(r"https?://[^\"' ]*", text)), {"http://www.w3.org/2000/svg"}
        )
        self.assertEqual(page.links, [])
        self.assertNotIn("<script", text)
        self.assertIn("default-src &#x27;none&#x27;", text)
        self.assertNotIn("url(", text)

    def test_what_is_written_by_others_is_text(self) -> None:
        text, page = self.page(BOOK, TABLE, CURVE, "--title", "<b>&amp;</b><script>")
        self.assertEqual(page.texts["h1"], ["<b>&amp;</b><script>, 2026-01-08"])
        self.assertIn("&amp; not(obs(Gone, 0))", text)

    def test_contracts_without_an_answer(self) -> None:
        book = BOOK + "contract half = scale(0.005, pay(EUR, Me, Acme));\n"
        page = self.page(book, "label,day,value\nGone,1,false\n", CURVE, "--at", "2026-01-06")[1]
        self.assertIn(
            "It is refused by the rule scale at node 0, so nothing else is told of it.",
            page.texts["p"],
        )
        self.assertIn(["half", "it is refused"], page.rows)
        self.assertIn(["call", "fault missing FX 10"], page.rows)
        self.assertIn(
            "Exposures would need the values of all contracts, so there are none.", page.texts["p"]
        )
        late = self.page(BOOK, TABLE, None, "--at", "2026-01-20")[1]
        self.assertIn("What is left of it cannot be told: fault missing FX 10.", late.texts["p"])

    def test_days_without_dates(self) -> None:
        book = BOOK.replace("origin 2026-01-05; ", "")
        rows = self.page(book, "label,day,value\nFX,3,1.2\nGone,3,false\n", CURVE)[1].rows
        self.assertIn(["0..29 was due", "-995.00", "1,000.00", "-5.00"], rows)
        self.assertIn(["30..59 due", "1,050.00", "-1,050.00", "–"], rows)

    def test_empty_books(self) -> None:
        for book in "portfolio 1; amounts 2;", BOOK.partition("contract")[0]:
            page = self.page(book, "label,day,value\n", CURVE)[1]
            self.assertIn("There are none.", page.texts["p"])

    def test_faults(self) -> None:
        for book, table, curve, words, status, said in [
            ("portfolio", TABLE, CURVE, [], 6, "fault text syntax line 1 column 10"),
            (BOOK, TABLE + "FX,1,9\n", CURVE, [], 7, "fault row file 2 record 4 bounds"),
            (BOOK, TABLE, "offset,factor\n", [], 7, "curve.csv: fault row file 3 record 2 zero"),
            (
                BOOK,
                TABLE,
                CURVE,
                ["--at", "2025-01-01"],
                11,
                "2025-01-01 is before the book's start",
            ),
            (BOOK, TABLE, CURVE, ["--at", "soon"], 2, "soon is no day"),
        ]:
            ran = self.report(book, table, curve, *words)
            self.assertEqual(
                (ran.status, ran.output, ran.errors.count("\n")), (status, "", 1), ran.errors
            )
            self.assertIn(said, ran.errors)

    def test_a_member(self) -> None:
        """The sums of the months are those of all payments that `flows` can tell, contract by
        contract.
        """
        member, program = Member(contracts=12, parties=3, days=12), the_program()
        rows = self.page(member.book(), member.fixings(), member.curve())[1].rows
        known: dict[str, Decimal] = defaultdict(Decimal)
        for number in range(12):
            answer = program.run(
                "flows",
                self.folder / "book.txt",
                self.folder / "fix.csv",
                "--contract",
                f"c{number:03}",
            )
            until = ["--until", str(answer.fault.cause.day - 1)] if answer.status else []
            if until != ["--until", "-1"]:
                words = [
                    "flows",
                    self.folder / "book.txt",
                    self.folder / "fix.csv",
                    "--contract",
                    f"c{number:03}",
                ]
                for line in program.run(*words, *until).expected().decode().splitlines():
                    _, _, payer, receiver, asset, amount = line.split(",")
                    known[receiver, asset] += Decimal(amount)
                    known[payer, asset] -= Decimal(amount)
        told: dict[str, Decimal] = defaultdict(Decimal)
        header: list[str] = []
        for row in rows:
            if row and row[0] in ("EUR", "USD", "GBP"):
                header = row
            elif row and row[0].endswith(" due"):
                for party, cell in zip(header[1:], row[1:]):
                    told[party, header[0]] += Decimal(cell.replace(",", "").replace("–", "0"))
        self.assertEqual(
            {it: n for it, n in told.items() if n}, {it: n for it, n in known.items() if n}
        )
        self.assertGreater(len(told), 5)

    @unittest.skipUnless(
        shutil.which("chromium"), "a report in a browser, since Chromium is not installed"
    )
    def test_in_a_browser(self) -> None:
        """A browser reads the page, keeps its parts, and prints it. It finds no host: none is
        asked.
        """
        text, page = self.page(BOOK, TABLE, CURVE)
        self.file("page.html", text)
        words = [
            "chromium",
            "--headless=new",
            "--no-sandbox",
            "--disable-gpu",
            f"--user-data-dir={self.folder}/chrome",
        ]
        place = f"file://{self.folder}/page.html"
        how = {"capture_output": True, "timeout": 300, "text": True}
        seen = subprocess.run([*words, "--dump-dom", place], **how).stdout
        self.assertEqual(re.findall("<h2>(.*?)</h2>", seen), page.texts["h2"])
        self.assertEqual(seen.count("<svg"), text.count("<svg"))
        subprocess.run([*words, f"--print-to-pdf={self.folder}/page.pdf", place], **how)
        self.assertTrue((self.folder / "page.pdf").read_bytes().startswith(b"%PDF"))


if __name__ == "__main__":
    unittest.main()
