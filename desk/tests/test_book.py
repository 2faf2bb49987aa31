"""Books that are changed: exact texts and faults, and flows on random books that are those of the
parts.
"""

from __future__ import annotations

import os
import unittest
from collections import Counter
from collections.abc import Callable
from typing import Any

from tests import random_books
from tests.random_books import Source, World
from tests.support import Ran, Room, run_desk, the_program
from tilugba.books.book import File, book_of
from tilugba.books.flow_lines import place_of
from tilugba.books.moving import advanced
from tilugba.books.splitting import parties_of
from tilugba.days import Calendar

# So many random books are tried of each property; BOOKS in the environment says another number.
COUNT = int(os.environ.get("BOOKS", "40"))


class Books(Room):
    """A folder with random books of one world."""

    def book(self, *words: object) -> Ran:
        return run_desk("book", *map(str, words))

    def two(self, dice: Any, count: int = 4, prefix: str = "d") -> tuple[Source, Source, World]:
        """Two random books of the same origin and version, and all that is observed round their
        days.
        """
        full = random_books.makers.some_decls(dice)
        one = random_books.source(
            dice, random_books.narrowed(dice, full, full.start), "c", count
        )
        other = random_books.narrowed(dice, full, max(0, full.start + dice.between(-9, 9)))
        two = random_books.source(dice, other, prefix, count)
        world = World(dice, full)
        world.fill(full.start - 70, full.start + 90)
        return one, two, world

    def lines(self, source: Source | bytes, world: World, labels: object = None) -> list[str]:
        text = source.text if isinstance(source, Source) else source
        names = (
            [it for it, _ in source.declared.labels] if isinstance(source, Source) else list(labels)
        )
        return random_books.flows(the_program(), world, text, names)


def due_in(text: str) -> list[str]:
    """The lines of comments before a text."""
    return [
        line[2:] for line in text.splitlines() if line.startswith("# ") and line.count(",") == 5
    ]


def cut_on(lines: list[str], day: int, origin: object) -> tuple[list[str], list[str]]:
    """The lines before a day, and those from it on."""
    place = place_of(calendar_of(origin))
    return [it for it in lines if place(it)[0] < day], [it for it in lines if place(it)[0] >= day]


def calendar_of(origin: object) -> Calendar:
    return Calendar(origin.toordinal() if origin is not None else None)


class Properties(Books):
    """Each on so many random books. What is paid is compared as lines, each as often as it is
    there.
    """

    def each(self, first: int, try_one: Callable[[Any], None]) -> None:
        """Tries dice of so many seeds; a failure names its seed."""
        for seed in range(first, first + COUNT):
            with self.subTest(seed=seed):
                try_one(random_books.makers.Dice(seed))
            self.done += 1

    def labels(self, *sources: Source) -> set[str]:
        return {name for it in sources for name, _ in it.declared.labels}

    def paid(self, text: str, world: World, *sources: Source) -> Counter[str]:
        return Counter(self.lines(text.encode(), world, self.labels(*sources)))

    def ran(self, world: World, word: str, *sources: Source) -> Ran:
        """A word on two books and a table of all that both declare."""
        table = self.file("fix.csv", world.table(self.labels(*sources)))
        return self.book(
            word, *(self.file(f"{name}.txt", it.text) for name, it in zip("ab", sources)), table
        )

    def is_too_great(self, ran: Ran) -> bool:
        """Whether deals are refused for their size, as behind an `after` of many days."""
        if ran.status != 1:
            self.assertEqual((ran.status, ran.errors), (0, ""))
            return False
        self.assertRegex(ran.errors, "is refused as it stands in the book: size")
        self.refused += 1
        return True

    def setUp(self) -> None:
        super().setUp()
        self.refused = self.done = 0

    def test_added(self) -> None:
        """The flows of both; those of the deals before the day of the book are due lines."""
        self.each(1, self.one_added)
        self.assertLess(self.refused, COUNT // 4)

    def one_added(self, dice: Any) -> None:
        book, deals, world = self.two(dice)
        mine, its = self.lines(book, world), self.lines(deals, world)
        ran = self.ran(world, "add", book, deals)
        if not self.is_too_great(ran):
            before, behind = cut_on(its, book.declared.start, book.declared.origin)
            self.assertEqual(Counter(due_in(ran.output)), Counter(before))
            self.assertEqual(self.paid(ran.output, world, book, deals), Counter(mine + behind))

    def test_amended(self) -> None:
        """The flows of the new ones in the place of those of the old ones, which stand where these
        stood.
        """
        self.each(1001, self.one_amended)
        self.assertLess(self.refused, COUNT // 4)

    def one_amended(self, dice: Any) -> None:
        book, deals, world = self.two(dice, prefix="c")
        if len(deals.names) > len(book.names):
            book, deals = deals, book
        mine, its = self.lines(book, world), self.lines(deals, world)
        ran = self.ran(world, "amend", book, deals)
        if not self.is_too_great(ran):
            before, behind = cut_on(its, book.declared.start, book.declared.origin)
            self.assertEqual(Counter(due_in(ran.output)), Counter(before))
            kept = [it for it in mine if it.split(",")[0] not in deals.names]
            self.assertEqual(self.paid(ran.output, world, book, deals), Counter(kept + behind))
            self.assertEqual(list(book_of(File("a", ran.output.encode())).contracts), book.names)

    def test_joined(self) -> None:
        """The flows of both from the later day on; what was due before that as comments."""
        self.each(2001, self.one_joined)

    def one_joined(self, dice: Any) -> None:
        one, two, world = self.two(dice)
        lines = self.lines(one, world) + self.lines(two, world)
        ran = self.ran(world, "join", one, two)
        self.assertEqual((ran.status, ran.errors), (0, ""))
        before, behind = cut_on(
            lines, max(one.declared.start, two.declared.start), one.declared.origin
        )
        self.assertEqual(Counter(due_in(ran.output)), Counter(before))
        self.assertEqual(self.paid(ran.output, world, one, two), Counter(behind))

    def test_dropped_and_pruned(self) -> None:
        """Without some names the lines of the others; without those that are `zero` the same lines.
        """
        self.pruned_names = 0
        self.each(3001, self.one_dropped_and_pruned)
        self.assertGreater(self.pruned_names, COUNT // 2)

    def one_dropped_and_pruned(self, dice: Any) -> None:
        book, _, world = self.two(dice, 6)
        mine = self.lines(book, world)
        some = [it for it in book.names if dice.chance(40)] or book.names[:1]
        ran = self.book("drop", self.file("a.txt", book.text), *some)
        self.assertEqual((ran.status, ran.errors), (0, ""))
        self.assertEqual(
            self.paid(ran.output, world, book),
            Counter(it for it in mine if it.split(",")[0] not in some),
        )
        day = book.declared.start + dice.between(0, 12)
        table = File("fix.csv", world.table(self.labels(book)))
        left = advanced(the_program(), book_of(File("a.txt", book.text)), table, day)
        ran = self.book("prune", self.file("left.txt", left.book.file.data))
        zero = [name for name, form in left.book.terms() if form == "zero"]
        self.assertEqual((ran.status, ran.errors.split()), (0, zero))
        self.pruned_names += len(zero)
        self.assertEqual(
            list(book_of(File("a", ran.output.encode())).contracts),
            [it for it in book.names if it not in zero],
        )
        self.assertEqual(
            self.paid(ran.output, world, book), self.paid(left.book.file.data.decode(), world, book)
        )

    def test_split(self) -> None:
        """The flows of the parts together are those of the book, and each contract is in one of
        them.
        """
        self.each(4001, self.one_split)

    def one_split(self, dice: Any) -> None:
        book, _, world = self.two(dice, 8)
        folder = self.folder / f"parts{self.done}"
        own = dice.one(book.declared.parties)
        if dice.chance(50):
            how = ("--own", own)
        else:
            rows = "".join(
                f"{it},{dice.one(('one', 'two', 'other'))}\n"
                for it in book.names
                if dice.chance(80)
            )
            how = ("--by", self.file("parts.csv", "name,part\n" + rows))
        ran = self.book("split", self.file("a.txt", book.text), folder, *how)
        self.assertEqual((ran.status, ran.output, ran.errors), (0, "", ""))
        parts = {it.stem: book_of(File(it.name, it.read_bytes())) for it in folder.iterdir()}
        self.assertEqual(
            sorted(name for it in parts.values() for name in it.contracts), sorted(book.names)
        )
        lines = [self.lines(it.file.data, world, self.labels(book)) for it in parts.values()]
        self.assertEqual(
            Counter(line for it in lines for line in it), Counter(self.lines(book, world))
        )
        if how[0] == "--own":
            for part, it in parts.items():
                for _, found in parties_of(it):
                    self.assertEqual(part == "other" or found == {own, part}, True, (part, found))

    def test_compared(self) -> None:
        """The lines of one, without those that are gone and with those that are new, are the lines
        of the other.
        """
        self.each(5001, self.one_compared)

    def one_compared(self, dice: Any) -> None:
        one, two, world = self.two(dice, prefix="c")
        day = max(one.declared.start, two.declared.start)
        before, after = (
            cut_on(self.lines(it, world), day, one.declared.origin)[1] for it in (one, two)
        )
        ran = self.ran(world, "diff", one, two)
        self.assertIn(ran.status, (0, 1), ran.errors)
        told = [it.split(",", 1) for it in ran.output.splitlines() if it.count(",") == 6]
        gone, new = (
            Counter(line for kind, line in told if kind == wanted) for wanted in ("gone", "new")
        )
        self.assertEqual(Counter(before) - gone + new, Counter(after))
        self.assertEqual(gone & new, Counter())
        names = {it.split(",", 1)[1] for it in ran.output.splitlines() if it.count(",") == 1}
        self.assertLessEqual({line.split(",")[0] for line in gone + new}, names)

    def test_a_book_that_was_advanced_is_no_other(self) -> None:
        self.each(6001, self.one_a_book_that_was_advanced_is_no_other)

    def one_a_book_that_was_advanced_is_no_other(self, dice: Any) -> None:
        book, _, world = self.two(dice)
        self.lines(book, world)
        table = File("fix.csv", world.table(self.labels(book)))
        left = advanced(
            the_program(),
            book_of(File("a.txt", book.text)),
            table,
            book.declared.start + dice.between(1, 9),
        )
        later = Source(book.declared, [], left.book.file.data)
        for pair in ((book, later), (later, book), (book, book)):
            ran = self.ran(world, "diff", *pair)
            self.assertEqual((ran.status, ran.output, ran.errors), (0, "", ""))


if __name__ == "__main__":
    unittest.main()
