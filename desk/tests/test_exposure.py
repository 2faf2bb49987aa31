"""Exposures: of a history by hand, and over a set beside what `scenarios` says of the whole set."""

import random
import unittest
from collections import defaultdict
from decimal import Decimal
from fractions import Fraction
from pathlib import Path
from xml.etree import ElementTree

from tests import random_contracts
from tests.member import Member
from tests.support import Ran, Room, run_desk, the_program
from tilugba.engines import Runs
from tilugba.exposures.held import ordered
from tilugba.exposures.positive import peak
from tilugba.exposures.sets import Scenarios
from tilugba.histories.deals import read_book

HEADER = "day,contract,payer,receiver,asset,value\n"
HISTORY = HEADER + "".join(
    f"{day},{row}\n"
    for day, rows in (
        ("2026-01-05", ("a,Me,X,EUR,-10.0", "b,Me,X,EUR,4.0", "c,X,Y,EUR,3.0", "d,Me,Y,USD,-1.0")),
        ("2026-01-06", ("a,Me,X,EUR,-2.0", "b,Me,X,EUR,5.0", "c,X,Y,EUR,0.0", "d,Me,Y,USD,-7.5")),
    )
    for row in rows
)
CURVE = "offset,factor\n0,1\n" + "".join(f"{day},{1 - day / 100:.2f}\n" for day in range(1, 40))


class Histories(Room):
    def exposure(self, history: str, *words: str | Path) -> Ran:
        return run_desk("exposure", self.file("history.csv", history), *words)

    def table(self, *words: str | Path) -> list[str]:
        ran = self.exposure(HISTORY, *words)
        self.assertEqual((ran.status, ran.errors), (0, ""))
        return ran.output.splitlines()

    def test_of_all_others(self) -> None:
        lines = self.table()
        self.assertEqual(lines[0], "day,party,asset,exposure")
        # On the first day X is to pay 6 to Me, and 3 to Y; on the second one Me is to pay 3 to X.
        wanted = ["Me,EUR,0.0", "Me,USD,0.0", "X,EUR,9.0", "X,USD,0.0", "Y,EUR,0.0", "Y,USD,1.0"]
        self.assertEqual(lines[1:7], [f"2026-01-05,{it}" for it in wanted])
        wanted = ["Me,EUR,3.0", "Me,USD,0.0", "X,EUR,0.0", "X,USD,0.0", "Y,EUR,0.0", "Y,USD,7.5"]
        self.assertEqual(lines[7:13], [f"2026-01-06,{it}" for it in wanted])
        wanted = ["Me,EUR,3.0", "Me,USD,0.0", "X,EUR,9.0", "X,USD,0.0", "Y,EUR,0.0", "Y,USD,7.5"]
        self.assertEqual(lines[13:], [f"*,{it}" for it in wanted])

    def test_of_one(self) -> None:
        lines = self.table("--of", "Me")
        self.assertEqual(lines[-4:], ["*,X,EUR,6.0", "*,X,USD,0.0", "*,Y,EUR,0.0", "*,Y,USD,7.5"])

    def test_gross(self) -> None:
        self.assertEqual(
            self.table("--of", "Me", "--gross")[-4:-2], ["*,X,EUR,10.0", "*,X,USD,0.0"]
        )

    def test_by_pair_is_as_by_contract(self) -> None:
        pairs = HEADER + (
            "2026-01-05,*,Me,X,EUR,-6.0\n2026-01-05,*,Me,Y,USD,-1.0\n2026-01-05,*,X,Y,EUR,3.0\n"
            "2026-01-06,*,Me,X,EUR,3.0\n2026-01-06,*,Me,Y,USD,-7.5\n2026-01-06,*,X,Y,EUR,0.0\n"
        )
        by_pair = {it for it in self.exposure(pairs).output.splitlines()}
        self.assertEqual(by_pair, set(self.table()))
        ran = self.exposure(pairs, "--gross")
        self.assertEqual((ran.status, "it is by pair" in ran.errors), (7, True))

    def test_no_history(self) -> None:
        for text, said in [
            ("day,party,asset,value\n", "record 1 is not the header"),
            (HEADER + "2026-01-05,a,Me,X,EUR,1\n", "record 2 is no row of a history"),
            (HEADER + "2026-01-05,a,Me,Me,EUR,1.0\n", "record 2 is no row of a history"),
            (HEADER + "0,a,A,B,E,1.0\n1,a,A,B,E,1.0\n0,a,A,B,E,1.0\n", "a day is in two places"),
            (HEADER + "0,a,A,B,E,1.0\n0,*,A,B,E,1.0\n", "rows of contracts and rows by pair"),
        ]:
            ran = self.exposure(text)
            self.assertEqual((ran.status, ran.output), (7, ""))
            self.assertIn(said, ran.errors)
        ran = self.exposure(HISTORY, "--of", "Z")
        self.assertEqual(
            (ran.status, "there is no party Z; parties: Me, X, Y" in ran.errors), (10, True)
        )
        self.assertEqual(self.exposure(HEADER).output, "day,party,asset,exposure\n")

    def test_words(self) -> None:
        for words in (["a", "b"], ["--mean", "floor"], ["a", "b", "c", "0", "1"]):
            ran = self.exposure(HISTORY, *words)
            self.assertEqual((ran.status, ran.output), (2, ""))

    def test_a_picture(self) -> None:
        path = self.folder / "picture.svg"
        self.table("--picture", path)
        root = ElementTree.fromstring(path.read_text())
        words = [it.text for it in root.iter("{http://www.w3.org/2000/svg}text")]
        for said in (
            "What the others would lose if a party failed, EUR",
            "Me",
            "X",
            "2026-01-05",
            "10",
        ):
            self.assertIn(said, words)
        lines = list(root.iter("{http://www.w3.org/2000/svg}polyline"))
        self.assertEqual(len(lines), 6)
        self.assertNotIn("http", path.read_text().replace("http://www.w3.org/2000/svg", ""))
        ran = self.exposure(HISTORY, "--picture", path)
        self.assertEqual((ran.status, ran.output, "is there already" in ran.errors), (4, "", True))

    def test_parties_in_declared_order(self) -> None:
        self.assertEqual(
            ordered([("C", "D"), ("A", "C"), ("A", "B"), ("B", "C")]), ["A", "B", "C", "D"]
        )
        self.assertEqual(sorted(ordered([("A", "B"), ("B", "A")])), ["A", "B"])


def random_set(chance: random.Random, count: int) -> str:
    """A set whose scenarios move one label each from day 6 on."""
    rows = ["scenario,label,day,value"]
    rows += [f"*,{line}" for line in random_contracts.fixings(chance, 5, 1).splitlines()[1:]]
    whole = [line.split(",") for line in random_contracts.fixings(chance, 60, 1).splitlines()[1:]]
    later = [row for row in whole if int(row[1]) > 5]
    for number in range(count):
        moved = chance.choice(("FX", "R", "F", ""))
        for label, day, value in later:
            told = random_contracts.value(label, chance) if label == moved else value
            rows.append(f"s{number},{label},{day},{told}")
    return "".join(f"{row}\n" for row in rows)


class Sets(Room):
    def write(self, book: str, table: str, curve: str = CURVE) -> None:
        self.book, self.set = self.file("book.txt", book), self.file("set.csv", table)
        self.curve = self.file("curve.csv", curve)

    def exposure(self, first: str, last: str, *words: str) -> Ran:
        mode = "--mean", "half_even"
        return run_desk("exposure", self.book, self.set, self.curve, first, last, *mode, *words)

    def by_hand(self, day: str, holder: str | None, is_gross: bool) -> dict[str, list[Fraction]]:
        """The exposure to each party and asset in each scenario, from `scenarios` over the whole
        set.
        """
        run, book = the_program().run, read_book(self.book.read_bytes(), Runs(the_program()))
        worth: dict[tuple[str, str, str], list[list[Fraction]]] = defaultdict(list)
        for deal in book.deals:
            code = run("payoff", self.book, "--contract", deal.name).expected()
            for pair in deal.pairs:
                sides = (
                    book.parties[pair.payer],
                    book.parties[pair.receiver],
                    book.assets[pair.asset],
                )
                words = [
                    "--at",
                    day,
                    "--from",
                    sides[0],
                    "--to",
                    sides[1],
                    "--asset",
                    sides[2],
                    "--mean",
                    "floor",
                ]
                told = run("scenarios", code, self.set, self.curve, *words).expected().decode()
                worth[sides].append(
                    [Fraction(line.split(",")[1]) for line in told.splitlines()[:-4]]
                )
        found: dict[str, list[Fraction]] = defaultdict(list)
        for (payer, receiver, asset), rows in worth.items():
            for values in rows if is_gross else [[sum(it) for it in zip(*rows)]]:
                for party, other, sign in (payer, receiver, 1), (receiver, payer, -1):
                    if party != holder and holder in (None, other):
                        lost = [max(sign * it, Fraction(0)) for it in values]
                        before = found[f"{party},{asset}"] or [Fraction(0)] * len(lost)
                        found[f"{party},{asset}"] = [a + b for a, b in zip(before, lost)]
        return found

    def compared(
        self, day: str, *words: str, holder: str | None = None, is_gross: bool = False
    ) -> int:
        ran = self.exposure(day, day, *words)
        self.assertEqual((ran.status, ran.errors), (0, ""))
        wanted, above = self.by_hand(day, holder, is_gross), 0
        names = list(
            dict.fromkeys(it.split(",")[0] for it in self.set.read_text().splitlines()[1:])
        )
        names.remove("*")
        for line in ran.output.splitlines()[1:]:
            _, party, asset, expected, greatest, scenario = line.split(",")
            values = wanted.get(f"{party},{asset}", [Fraction(0)] * len(names))
            mean = sum(values) / len(values)
            self.assertEqual(round(mean * 10**11), Fraction(expected) * 10**11, line)
            self.assertEqual(
                (max(values), names[values.index(max(values))]),
                (Fraction(greatest), scenario),
                line,
            )
            above += max(values) > 0
        return above

    def test_beside_the_whole_set(self) -> None:
        chance, above, alike = random.Random(8), 0, 0
        for _ in range(5):
            self.write(random_contracts.book(chance, 3), random_set(chance, 8))
            day = str(chance.randrange(3, 9))
            above += self.compared(day)
            above += self.compared(day, "--of", "B", "--gross", holder="B", is_gross=True)
            book = read_book(self.book.read_bytes(), Runs(the_program()))
            scenarios = Scenarios(self.set.read_bytes(), book.calendar)
            alike += sum(len(set(scenarios.part(deal.reads).like)) < 8 for deal in book.deals)
        self.assertGreater(above, 30)
        self.assertGreater(alike, 2)

    def test_a_member_over_shocks(self) -> None:
        """The way that a desk goes: a table for the whole time, a set of shocks, exposures over
        it.
        """
        member = Member(contracts=6, parties=2, assets=2, days=10)
        full = run_desk(
            "fill-days", self.file("observed.csv", member.fixings()), "--to", "2027-06-01"
        ).output
        self.write(member.book(), "", member.curve())
        self.set.unlink()
        words = "--from", "2026-01-12", "--mode", "half_even", "--to", self.set, "--label", "EURUSD"
        ran = run_desk(
            "shocks", self.book, self.file("full.csv", full), *words, "--by=-5%,5%", "--base"
        )
        self.assertEqual((ran.status, ran.errors), (0, ""))
        self.assertGreater(self.compared("2026-01-12", "--of", "Member", holder="Member"), 2)

    def test_peaks_are_of_all_days(self) -> None:
        self.write(random_contracts.book(random.Random(2), 3), random_set(random.Random(3), 4))
        rows = [it.split(",") for it in self.exposure("3", "9").output.splitlines()[1:]]
        for day, party, asset, expected, greatest, _ in rows:
            if day == "*":
                those = [row for row in rows if row[0] != "*" and row[1:3] == [party, asset]]
                self.assertEqual(len(those), 7)
                self.assertEqual(Decimal(expected), max(Decimal(it[3]) for it in those))
                self.assertEqual(Decimal(greatest), max(Decimal(it[4]) for it in those))

    def test_of_equal_peaks_the_first_counts(self) -> None:
        self.assertEqual(peak((1, 5, 0), (2, 5, 1)), (2, 5, 0))
        self.assertEqual(peak((2, 5, 0), (1, 6, 1)), (2, 6, 1))

    def test_faults(self) -> None:
        book = (
            random_contracts.HEAD
            + "contract c = after(4, scale(round(floor, 2, obs(FX, 0)), pay(EUR, A, B)));\n"
        )
        rows = "scenario,label,day,value\ns,FX,7,1\nt,FX,7,1.5\n"
        for table, curve, status, said in [
            (rows + "u,FX,6,1\n", CURVE, 8, "2026-01-08, c: fault missing FX 7 in u"),
            (rows + "u,GX,6,1\n", CURVE, 7, "fault row file 2 record 4 label"),
            ("scenario,label,day,value\n", CURVE, 7, "fault row file 2 record 2 shape"),
            (rows, CURVE + "30,1\n", 7, "curve.csv: fault row file 3 record 42 rising"),
        ]:
            self.write(book, table, curve)
            ran = self.exposure("3", "3")
            self.assertEqual((ran.status, ran.output), (status, ""))
            self.assertIn(said, ran.errors)
        self.write(book.partition("contract")[0], rows)
        self.assertEqual(self.exposure("3", "3").status, 7)
        self.write(book, rows)
        self.assertEqual(self.exposure("3", "2").status, 2)
        self.assertEqual(self.exposure("3", "3", "--of", "Z").status, 10)


if __name__ == "__main__":
    unittest.main()
