"""Corrections of a book that is kept: what `since` says leads from what was booked to what a
replay, and the parts, say that is paid.
"""

from __future__ import annotations

import os
import unittest
from collections import Counter
from typing import Any

from tests import random_books
from tests.histories import History, a_history, wrong_world
from tests.random_books import World, table_of
from tests.support import Room, the_program
from tilugba.books import folder, keeping, replaying
from tilugba.books.book import File
from tilugba.books.events import Event, event
from tilugba.books.folder import Kept, read_kept
from tilugba.program import Stop

# So many random histories are tried of each property; BOOKS in the environment says otherwise.
COUNT = int(os.environ.get("BOOKS", "16"))


def due_of(kept: Kept) -> Counter[str]:
    """What the ledger has of the steps as they are kept."""
    return Counter(line for step in kept.steps for line in step.due)


class Histories(Room):
    def setUp(self) -> None:
        super().setUp()
        self.count = 0
        self.tried: Counter[str] = Counter()

    def begin(self, history: History) -> Kept:
        self.count += 1
        path = self.folder / f"kept{self.count}"
        history.begin()
        folder.begin(path, event("begin"), history.book(), None)
        return read_kept(path)

    def step(self, kept: Kept, it: Event) -> tuple[Kept, Counter[str]]:
        """A step, and what it leaves to the ledger."""
        changed = keeping.happened(the_program(), kept, it, None)
        return read_kept(kept.path), Counter(changed.due)

    def steps(
        self, kept: Kept, history: History, some: World, most: int
    ) -> tuple[Kept, Counter[str]]:
        """Random steps by a world, and what they leave to the ledger."""
        ledger: Counter[str] = Counter()
        for _ in range(history.dice.between(2, most)):
            kept, due = self.step(kept, history.next_event(kept.book(), some))
            ledger += due
        return kept, ledger

    def correct(self, kept: Kept, table: bytes) -> tuple[Kept, Counter[str], Counter[str]]:
        lines = keeping.correction(the_program(), kept, File("new.csv", table))
        return read_kept(kept.path), Counter(lines.gone), Counter(lines.new)

    def each(self, first: int, try_one: Any) -> None:
        """Tries dice of so many seeds; a failure names its seed. Few of them may end with an event
        that does not apply any more.
        """
        for seed in range(first, first + COUNT):
            with self.subTest(seed=seed):
                try:
                    try_one(random_books.makers.Dice(seed))
                except Stop as stop:
                    self.assertIn("does not apply any more", stop.message)
                    self.tried["not applied"] += 1
            self.tried["all"] += 1
        self.assertEqual(self.tried["all"], COUNT)
        self.assertLess(self.tried["not applied"], COUNT // 4)

    def now(self, kept: Kept, history: History, some: World) -> bytes:
        """All that is observed before today, and some days later, of what the book has."""
        labels = kept.book().labels
        return table_of(
            {
                place: it
                for place, it in some.rows.items()
                if place[0] in labels and place[1] < history.day + 6
            }
        )


class Properties(Histories):
    def test_corrected(self) -> None:
        """What was booked, without what is gone and with what is new, is what the parts say over
        the true table.
        """
        self.each(1, self.one_corrected)
        self.assertGreater(self.tried["with lines"], 0)

    def one_corrected(self, dice: Any) -> None:
        history = a_history(dice)
        kept, ledger = self.steps(self.begin(history), history, history.wrong, 8)
        kept, gone, new = self.correct(kept, self.now(kept, history, history.world))
        self.assertLessEqual(gone, ledger)
        self.assertEqual(ledger - gone + new, history.ledger())
        self.assertEqual(due_of(kept), history.ledger())
        self.tried["with lines"] += bool(gone or new)

    def test_twice(self) -> None:
        """Two corrections leave the ledger and the book that the last table alone leaves."""
        self.each(1001, self.one_twice)
        self.assertGreater(self.tried["with lines"], 0)

    def one_twice(self, dice: Any) -> None:
        history = a_history(dice)
        kept, ledger = self.steps(self.begin(history), history, history.wrong, 8)
        once = replaying.corrected(
            the_program(), kept, File("new.csv", self.now(kept, history, history.world))
        )
        other = wrong_world(dice, history.wrong, history.first.declared.start)
        kept, gone, new = self.correct(kept, self.now(kept, history, other))
        ledger = ledger - gone + new
        kept, gone, new = self.correct(kept, self.now(kept, history, history.world))
        self.assertEqual(ledger - gone + new, history.ledger())
        if once.steps:
            self.assertEqual(kept.last.book.data, once.steps[-1].book.data)
        self.tried["with lines"] += bool(gone or new)

    def test_there_and_back(self) -> None:
        """A correction that is taken back takes its lines back, and leaves what was booked at
        first.
        """
        self.each(2001, self.one_there_and_back)
        self.assertGreater(self.tried["with lines"], 0)

    def one_there_and_back(self, dice: Any) -> None:
        history = a_history(dice)
        kept, ledger = self.steps(self.begin(history), history, history.wrong, 8)
        kept, gone, new = self.correct(kept, self.now(kept, history, history.world))
        kept, again, back = self.correct(kept, self.now(kept, history, history.wrong))
        self.assertEqual((again, back), (new, gone))
        self.assertEqual(due_of(kept), ledger)
        self.tried["with lines"] += bool(gone or new)

    def test_nothing_changed(self) -> None:
        """A table with the same rows and later ones prints nothing, and nothing is kept."""
        self.each(3001, self.one_nothing_changed)

    def one_nothing_changed(self, dice: Any) -> None:
        history = a_history(dice)
        kept, ledger = self.steps(self.begin(history), history, history.world, 6)
        self.assertEqual(ledger, history.ledger())
        after, gone, new = self.correct(kept, self.now(kept, history, history.world))
        self.assertEqual((gone, new, after.count), (Counter(), Counter(), kept.count))

    def test_going_on(self) -> None:
        """Behind a correction the book goes on, is corrected once more, and its ledger is that of
        the parts.
        """
        self.each(4001, self.one_going_on)

    def one_going_on(self, dice: Any) -> None:
        history = a_history(dice)
        kept, ledger = self.steps(self.begin(history), history, history.wrong, 5)
        kept, gone, new = self.correct(kept, self.now(kept, history, history.world))
        ledger = ledger - gone + new
        kept, due = self.steps(kept, history, history.world, 4)
        self.assertEqual(ledger + due, history.ledger())
        kept, gone, new = self.correct(kept, self.now(kept, history, history.wrong))
        kept, back, again = self.correct(kept, self.now(kept, history, history.world))
        self.assertEqual((gone, new), (again, back))
        self.assertEqual(due_of(kept), history.ledger())


if __name__ == "__main__":
    unittest.main()
