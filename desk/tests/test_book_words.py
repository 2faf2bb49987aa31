"""The words of `book`: exact texts, exact faults, and that nothing of a user's is written over."""

from __future__ import annotations

import unittest
from pathlib import Path

from tests.support import Ran, Room, run_desk

BOOK = """# the book
portfolio 1;
amounts 2;   # cents
origin 2026-01-05;
start 3;
party Me, Acme; asset EUR;
num FX : 4 in 0.5000 .. 2.0000;

# the call
contract call = after(6, if (obs(FX, 0) > 1.1750) within 0
  then scale(500.00, pay(EUR, Acme, Me))
  else zero);  # till the ninth
# nothing is left of this one
contract old = zero;
# the end
"""
DEALS = """portfolio 1;
amounts 2;
origin 2026-01-05;
start 5;
party Me, Bank;
asset EUR, USD;
flag Default;
template Term = 10;
# a loan
contract loan = both(scale(5.00, pay(EUR, Me, Bank)), after(Term, scale(5.10, pay(EUR, Bank, Me))));
"""
ADDED = """# the book
portfolio 1;
amounts 2;   # cents
origin 2026-01-05;
start 3;
party Me, Acme;
party Bank;
 asset EUR;
asset USD;
num FX : 4 in 0.5000 .. 2.0000;
flag Default;
template Term = 10;

# the call
contract call = after(6, if (obs(FX, 0) > 1.1750) within 0
  then scale(500.00, pay(EUR, Acme, Me))
  else zero);  # till the ninth
# nothing is left of this one
contract old = zero;
# a loan
contract loan = LOAN;
# the end
""".replace(
    "LOAN",
    "after(2, both(scale(5.00, pay(EUR, Me, Bank)), after(Term, scale(5.10, pay(EUR, Bank, Me)))))",
)


class Words(Room):
    """Runs in a folder, whose name is left out of what is printed."""

    def book(self, *words: str | Path) -> Ran:
        ran = run_desk("book", *words)
        told = (it.replace(f"{self.folder}/", "") for it in (ran.output, ran.errors))
        return Ran(ran.status, *told)

    def fails(self, status: int, said: str, *words: str | Path) -> None:
        self.assertEqual(self.book(*words), Ran(status, "", said))

    def two(self, book: str = BOOK, deals: str = DEALS) -> tuple[Path, Path]:
        return self.file("book.txt", book), self.file("deals.txt", deals)


class Texts(Words):
    def test_added(self) -> None:
        self.assertEqual(self.book("add", *self.two()), Ran(0, ADDED, ""))

    def test_added_from_an_earlier_day(self) -> None:
        ran = self.book("add", *self.two(deals=DEALS.replace("start 5", "start 1")))
        self.assertEqual(ran.status, 0)
        self.assertTrue(ran.output.startswith("# loan,2026-01-06,Me,Bank,EUR,5.00\n# the book\n"))
        self.assertIn(
            "contract loan = after(8, scale(5.10, pay(EUR, Bank, Me)));\n# the end", ran.output
        )

    def test_amended(self) -> None:
        ran = self.book("amend", *self.two(ADDED, DEALS.replace("5.10", "5.20")))
        self.assertEqual(ran, Ran(0, ADDED.replace("5.10", "5.20"), ""))

    def test_dropped_and_pruned(self) -> None:
        book = self.file("book.txt", BOOK)
        start, end = BOOK.index("\n# the call"), BOOK.index("# nothing")
        self.assertEqual(self.book("drop", book, "call"), Ran(0, BOOK[:start] + BOOK[end:], ""))
        pruned = BOOK.replace("# nothing is left of this one\ncontract old = zero;\n", "")
        self.assertEqual(self.book("prune", book), Ran(0, pruned, "old\n"))
        self.assertEqual(self.book("prune", self.file("pruned.txt", pruned)), Ran(0, pruned, ""))

    def test_joined(self) -> None:
        """The earlier book is advanced, on either side; the later one keeps its comments."""
        table = self.file("fix.csv", "label,day,value\nFX,2026-01-14,1.2000\n")
        earlier = BOOK.replace("after(6,", "after(1, pay(EUR, Me, Acme)); contract far = after(6,")
        book, deals = self.two(earlier)
        ran = self.book("join", book, deals, table)
        self.assertEqual((ran.status, ran.errors), (0, ""))
        self.assertEqual(
            ran.output.splitlines()[:2], ["# call,2026-01-09,Me,Acme,EUR,1.00", "portfolio 1;"]
        )
        for said in (
            "start 5;",
            "contract far = after(4, ",
            "# a loan\ncontract loan = both(",
            "template Term = 10;",
        ):
            self.assertIn(said, ran.output)
        other = self.book("join", deals, book, table)
        self.assertEqual(
            other.output.splitlines()[:2], ["# call,2026-01-09,Me,Acme,EUR,1.00", "portfolio 1;"]
        )
        self.assertIn("# a loan\ncontract loan = both(", other.output)

    def test_split(self) -> None:
        due = "# loan,2026-01-06,Me,Bank,EUR,5.00\n# gone,2026-01-05,Me,Bank,EUR,1.00\n"
        book, folder = self.file("book.txt", due + ADDED), self.folder / "parts"
        self.assertEqual(self.book("split", book, folder, "--own", "Me"), Ran(0, "", ""))
        self.assertEqual(
            sorted(it.name for it in folder.iterdir()), ["Acme.txt", "Bank.txt", "other.txt"]
        )
        bank = (folder / "Bank.txt").read_text()
        self.assertTrue(bank.startswith("# loan,2026-01-06,Me,Bank,EUR,5.00\n# the book\n"))
        self.assertNotIn("contract call", bank)
        self.assertTrue(
            (folder / "other.txt")
            .read_text()
            .startswith("# gone,2026-01-05,Me,Bank,EUR,1.00\n# the book\n")
        )

    def test_split_by_a_table(self) -> None:
        table = self.file("parts.csv", 'name,part\ncall,options\n"loan",loans\n')
        self.assertEqual(
            self.book("split", self.file("b.txt", ADDED), self.folder / "parts", "--by", table),
            Ran(0, "", ""),
        )
        self.assertEqual(
            sorted(it.name for it in (self.folder / "parts").iterdir()),
            ["loans.txt", "options.txt", "other.txt"],
        )

    def test_compared(self) -> None:
        table = self.file("fix.csv", "label,day,value\nFX,9,1.2000\n")
        one, two = self.file("a.txt", ADDED), self.file("b.txt", BOOK.replace("500.00", "600.00"))
        lines = "changed,call\ngone,loan\n"
        self.assertEqual(self.book("diff", one, two), Ran(1, lines, ""))
        lines += (
            "gone,loan,2026-01-10,Me,Bank,EUR,5.00\ngone,call,2026-01-14,Acme,Me,EUR,500.00\n"
            "new,call,2026-01-14,Acme,Me,EUR,600.00\ngone,loan,2026-01-20,Bank,Me,EUR,5.10\n"
        )
        self.assertEqual(self.book("diff", one, two, table), Ran(1, lines, ""))
        self.assertEqual(self.book("diff", one, one, table), Ran(0, "", ""))

    def test_another_declaration_is_a_change(self) -> None:
        """The text of the contract is the same, and what its template says is not."""
        one, two = self.file("a.txt", DEALS), self.file(
            "b.txt", DEALS.replace("Term = 10", "Term = 11")
        )
        self.assertEqual(self.book("diff", one, two), Ran(1, "changed,loan\n", ""))

    def test_ids_are_carried_along(self) -> None:
        mine, its = self.file("ids.csv", 'name,id\ncall,"T,1"\nlong_gone,T0\n'), self.file(
            "more.csv", "name,lei\nloan,5493\n"
        )
        new = self.folder / "all.csv"
        self.assertEqual(self.book("add", *self.two(), "--ids", mine, its, new).status, 0)
        self.assertEqual(new.read_text(), 'name,id,lei\ncall,"T,1",\nlong_gone,T0,\nloan,,5493\n')
        self.assertEqual(
            self.book(
                "split",
                self.file("c.txt", ADDED),
                self.folder / "parts",
                "--own",
                "Me",
                "--ids",
                new,
            ).status,
            0,
        )
        self.assertEqual(
            (self.folder / "parts" / "Bank.ids.csv").read_text(), "name,id,lei\nloan,,5493\n"
        )
        other = self.file("other.csv", "name,lei\nloan,5494\n")
        again = self.folder / "again.csv"
        ran = self.book(
            "amend",
            self.file("c.txt", ADDED),
            self.file("deals.txt", DEALS),
            "--ids",
            new,
            other,
            again,
        )
        self.assertEqual(ran.status, 0)
        self.assertEqual(again.read_text(), 'name,id,lei\ncall,"T,1",\nlong_gone,T0,\nloan,,5494\n')


class Faults(Words):
    def test_names_that_mean_something_else(self) -> None:
        fx = "and in book.txt `num FX : 4 in 0.5000 .. 2.0000;`"
        for was, now, said in [
            ("amounts 2", "amounts 3", "deals.txt has `amounts 3;`, and book.txt has `amounts 2;`"),
            (
                "portfolio 1",
                "portfolio 2",
                "deals.txt has `portfolio 2;`, and book.txt has `portfolio 1;`",
            ),
            (
                "origin 2026-01-05",
                "origin 2026-01-06",
                "deals.txt has `origin 2026-01-06;`, and book.txt has `origin 2026-01-05;`",
            ),
            (
                "origin 2026-01-05;\n",
                "",
                "deals.txt has no `origin`, and book.txt has `origin 2026-01-05;`",
            ),
            (
                "flag Default",
                "flag FX",
                f"label FX means something else in deals.txt: `flag FX;`, {fx}",
            ),
            (
                "flag Default",
                "num FX : 4 in 0.5 .. 2.1",
                "label FX means something else in deals.txt: `num FX : 4 in 0.5000 .. 2.1000;`, "
                + fx,
            ),
            (
                "contract loan",
                "contract call",
                "book.txt has a contract call, and so has deals.txt: names are taken once",
            ),
        ]:
            with self.subTest(now=now):
                self.fails(
                    1,
                    f"tilugba-desk book add: {said}\n",
                    "add",
                    *self.two(deals=DEALS.replace(was, now)),
                )

    def test_other_templates_and_decimals(self) -> None:
        two = DEALS.replace("portfolio 1", "portfolio 2")
        base = two.replace("contract loan", "contract mine")
        said = (
            "template Term means something else in deals.txt: `template Term = 11;`,"
            " and in book.txt `template Term = 10;`"
        )
        self.fails(
            1,
            f"tilugba-desk book join: {said}\n",
            "join",
            *self.two(base, two.replace("Term = 10", "Term = 11")),
        )
        said = (
            "asset USD means something else in deals.txt: `asset USD : 0;`,"
            " and in book.txt `asset USD : 2;`"
        )
        self.fails(
            1,
            f"tilugba-desk book join: {said}\n",
            "join",
            *self.two(base, two.replace("USD;", "USD : 0;")),
        )
        self.assertEqual(
            self.book("join", *self.two(base, two.replace("USD;", "USD : 2;"))).status, 0
        )

    def test_unknown_names(self) -> None:
        book, deals = self.two()
        self.fails(
            10,
            "tilugba-desk book drop: book.txt: there is no contract cal; is call meant?\n",
            "drop",
            book,
            "old",
            "cal",
        )
        self.fails(
            10,
            "tilugba-desk book amend: book.txt: there is no contract loan\n",
            "amend",
            book,
            deals,
        )
        self.fails(
            10,
            "tilugba-desk book split: book.txt: there is no party Mee; is Me meant?\n",
            "split",
            book,
            self.folder / "d",
            "--own",
            "Mee",
        )
        self.assertFalse((self.folder / "d").exists())

    def test_what_the_program_says(self) -> None:
        """A missing fixing, a bad record by its own number, a bad text."""
        reads = DEALS.replace("start 5", "start 1").replace(
            "scale(5.00", "scale(if(obs(Default, 0), 1.00, 2.00)"
        )
        ran = self.book("add", *self.two(deals=reads))
        self.assertEqual((ran.status, ran.output), (8, ""))
        self.assertTrue(
            ran.errors.startswith(
                "deals.txt: missing fixing of Default on 2026-01-06 (day 1, a Tuesday),"
                " read by loan\n"
            )
        )
        table = self.file("fix.csv", "label,day,value\nFX,1,1.1\nDefault,1,yes\n")
        ran = self.book("add", *self.two(deals=reads), table)
        self.assertEqual(
            (ran.status, ran.errors.splitlines()[0]), (7, "fix.csv:3:11: value (record 3)")
        )
        ran = self.book(
            "add", *self.two(deals=reads), self.file("fix.csv", "label,day,value\nGX,1,1.1\n")
        )
        self.assertEqual(
            (ran.status, ran.errors.splitlines()[0]), (7, "fix.csv:2:1: label (record 2)")
        )
        ran = self.book(
            "drop",
            self.file("bad.txt", BOOK.replace("contract old = zero", "contract old = ")),
            "call",
        )
        self.assertEqual((ran.status, ran.errors.splitlines()[0]), (6, "bad.txt:14:16: syntax"))

    def test_deals_that_are_too_far_or_too_deep(self) -> None:
        far = DEALS.replace("start 5", "start 100004")
        said = "deals.txt begins 100,001 days later than the book, and `after` has at most 100,000"
        self.fails(1, f"tilugba-desk book add: {said}\n", "add", *self.two(deals=far))
        long = DEALS.replace("start 5", "start 99999")
        said = "deals.txt: loan is refused as it stands in the book: size node 0"
        self.fails(1, f"tilugba-desk book add: {said}\n", "add", *self.two(deals=long))
        deep = (
            DEALS[: DEALS.index("contract loan")]
            + "contract deep = "
            + "both(zero, " * 199
            + "zero"
            + ")" * 199
            + ";"
        )
        ran = self.book("add", *self.two(deals=deep))
        self.assertEqual((ran.status, ran.output), (6, ""))
        self.assertRegex(ran.errors, r"^deals.txt in book.txt:\d+:\d+: deep\n")

    def test_tables_of_parts(self) -> None:
        book = self.file("book.txt", BOOK)
        for rows, said in [
            ("name,parts\n", "record 1 is not the header name,part"),
            ("name,part\ncall\n", "record 2 does not have 2 fields"),
            ("name,part\ncal,x\n", "record 2: there is no contract cal in book.txt"),
            (
                "name,part\ncall,../x\n",
                "record 2: '../x' is no name of a part: letters, digits and `_`",
            ),
            ("name,part\ncall,x\ncall,y\n", "record 3: call is in the part x already"),
        ]:
            with self.subTest(rows=rows):
                table = self.file("parts.csv", rows)
                self.fails(
                    7,
                    f"tilugba-desk book split: parts.csv: {said}\n",
                    "split",
                    book,
                    self.folder / "d",
                    "--by",
                    table,
                )
        other = self.file("other.txt", BOOK.replace("Me, Acme;", "Me, Acme, other;"))
        said = (
            "other.txt has a party other, which is the name of the part for the rest:"
            " split it by a table"
        )
        self.fails(
            1,
            f"tilugba-desk book split: {said}\n",
            "split",
            other,
            self.folder / "d",
            "--own",
            "Me",
        )

    def test_tables_of_ids(self) -> None:
        good, new = self.file("ids.csv", "name,id\ncall,T1\n"), self.folder / "new.csv"
        for rows, status, said in [
            (
                "id,name\n",
                7,
                "more.csv: record 1 is not a header name,id,.. with a name for each column",
            ),
            (
                "name,id,id\n",
                7,
                "more.csv: record 1 is not a header name,id,.. with a name for each column",
            ),
            ("name,id\nloan\n", 7, "more.csv: record 2 does not have 2 fields"),
            ("name,id\nloan,1\nloan,1\n", 7, "more.csv: record 3: loan has record 2 already"),
            ("name,id\nlo an,1\n", 7, "more.csv: record 2: 'lo an' is no name of a contract"),
            ("name,id\nlend,1\n", 10, "more.csv: there is no contract lend in deals.txt"),
        ]:
            with self.subTest(rows=rows):
                more = self.file("more.csv", rows)
                self.fails(
                    status,
                    f"tilugba-desk book add: {said}\n",
                    "add",
                    *self.two(),
                    "--ids",
                    good,
                    more,
                    new,
                )
        more, taken = self.file("more.csv", "name,id\nloan,2\n"), self.file(
            "taken.csv", "name,id\nloan,1\n"
        )
        said = "more.csv says something else of loan than taken.csv, perhaps of an earlier contract"
        self.fails(
            1, f"tilugba-desk book add: {said}\n", "add", *self.two(), "--ids", taken, more, new
        )
        self.assertFalse(new.exists())

    def test_nothing_is_written_over(self) -> None:
        book, deals = self.two()
        ids = self.file("ids.csv", "name,id\ncall,1\n"), self.file("more.csv", "name,id\nloan,2\n")
        self.fails(
            4,
            "tilugba-desk book add: ids.csv is there already, and is not written over\n",
            "add",
            book,
            deals,
            "--ids",
            *ids,
            ids[0],
        )
        folder = self.folder / "parts"
        folder.mkdir()
        self.fails(
            4,
            "tilugba-desk book split: parts is there already, and is not written over\n",
            "split",
            book,
            folder,
            "--own",
            "Me",
        )
        self.assertEqual((book.read_text(), ids[0].read_text()), (BOOK, "name,id\ncall,1\n"))
        self.assertEqual(list(folder.iterdir()), [])

    def test_wrong_words(self) -> None:
        book = self.file("book.txt", BOOK)
        for words in (
            ["book"],
            ["book", "ad"],
            ["book", "drop", book],
            ["book", "split", book, "d"],
            ["book", "keep", "f"],
        ):
            with self.subTest(words=words):
                ran = run_desk(*words)
                self.assertEqual((ran.status, ran.output), (2, ""))
                self.assertIn("error:", ran.errors)

    def test_help(self) -> None:
        for words in (
            ["book"],
            *(["book", it] for it in "add amend drop prune join split diff since keep".split()),
        ):
            ran = run_desk(*words, "--help")
            self.assertEqual(ran.status, 0)
            self.assertIn("--program PROGRAM", ran.output)
        self.assertIn(
            "--contract NAME", run_desk("book", "keep", "kept", "novate", "--help").output
        )


if __name__ == "__main__":
    unittest.main()
