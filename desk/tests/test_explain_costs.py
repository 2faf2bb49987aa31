"""Explanations of random edits, and what an explanation costs."""

from __future__ import annotations

import os
import random
import resource
import subprocess
import sys

from tests.support import DESK, Room, slowness, the_program
from tests.test_explain import EMPTY, HEAD
from tests.texts import CODE, SCHEDULES, edited, examples
from tilugba.explanations.explaining import Run, notes_of
from tilugba.explanations.notes import Note


class Everywhere(Room):
    def test_every_fault_of_random_edits_is_explained(self) -> None:
        """The first line has the program's place and kind, and below it is more."""
        program, chance = the_program(), random.Random(9)
        explained = 0
        for number in range(400):
            example = chance.choice(examples())
            data = edited(example.data, chance)
            path = str(self.file("text", data))
            value = [
                "value", path, path, path, "--at", "0", "--from", "A", "--to", "B", "--asset", "E"
            ]
            words = {CODE: value, SCHEDULES: ["expand", path]}
            run_words = words.get(example.grammar, ["check", path])
            run = Run(run_words, program, program.run(*run_words))
            for note in notes_of(run):
                lines = list(note.told())
                self.assertIsInstance(note, Note)
                self.assertGreater(len(lines), 0 if note.place is None else 3, (number, lines))
                explained += 1
        self.assertGreater(explained, 300)

    def test_time(self) -> None:
        """On texts and tables of 100 kB an explanation takes at most 0.15 seconds of a quiet
        processor beside the program, the start of Python among them. What Python keeps of the
        package is there, as after any first use.
        """
        deal = "contract c{} = scale(round(half_even, 2, obs(EURUSD, 0)), pay(EUR, Me, Acme));\n"
        book = HEAD + "".join(deal.format(number) for number in range(1_500))
        good, empty = self.file("good.txt", book), self.file("empty.csv", EMPTY)
        rows = "".join(f"EURUSD,{day},1.1000\n" for day in range(6_500))
        runs = {
            "a comma in a number": (
                "check", self.file("fault.txt", book + "contract d = scale(1,5, zero);")
            ),
            "a refused contract": (
                "check", self.file("refused.txt", book + deal.format(9_999).replace("2,", "3,"))
            ),
            "thirty refused contracts": (
                "check", self.file("many.txt", book.replace("half_even, 2,", "half_even, 3,", 30))
            ),
            "a missing fixing": ("flows", good, empty),
            "one that a long table lacks": (
                "flows", good, self.file("late.csv", EMPTY + rows.replace("EURUSD,0,1.1000\n", ""))
            ),
            "a record of a table": (
                "flows", good, self.file("rows.csv", f"{EMPTY}{rows}EURUSD,2026-1-1,1.1\n")
            ),
            "a name": ("flows", good, empty, "--contract", "c"),
        }
        self.assertGreater(
            min(good.stat().st_size, (self.folder / "rows.csv").stat().st_size), 100_000
        )
        for title, words in runs.items():
            asked = [os.fspath(it) for it in words]
            explain = [sys.executable, str(DESK / "tilugba-desk"), "explain", *asked]
            self.processor_time(explain)
            explained = min(self.processor_time(explain) for _ in range(5))
            answered = min(self.processor_time([str(the_program().path), *asked]) for _ in range(5))
            with self.subTest(title):
                self.assertLess(explained - answered, 0.15 * slowness())

    def processor_time(self, words: list[str]) -> float:
        """The seconds of a processor that these words take."""
        kept = {
            **os.environ,
            "PYTHONPYCACHEPREFIX": str(self.folder / "kept"),
            "PYTHONDONTWRITEBYTECODE": "",
        }
        before = resource.getrusage(resource.RUSAGE_CHILDREN)
        subprocess.run(words, capture_output=True, env=kept)
        after = resource.getrusage(resource.RUSAGE_CHILDREN)
        return after.ru_utime - before.ru_utime + after.ru_stime - before.ru_stime

    def test_what_is_loaded(self) -> None:
        """Each of these modules takes as long to load as a text to explain, and none of them is
        asked for. What a machine loads at each start of its Python is left aside.
        """
        book = self.file("book.txt", HEAD + "contract c = scale(1,5, zero);")
        dear = {
            "dataclasses", "inspect", "tomllib", "json", "shutil", "tempfile", "difflib", "hashlib"
        }
        script = (
            f"import sys; sys.path.insert(0, {str(DESK)!r}); from tilugba import cli; "
            f"sys.argv[1:] = ['explain', 'check', {str(book)!r}]; "
            "print(cli.main(), *sorted(sys.modules))"
        )
        ran = subprocess.run(
            [sys.executable, "-I", "-S", "-c", script],
            capture_output=True,
            text=True,
            env={"TILUGBA": str(the_program().path)},
        )
        status, *loaded = ran.stdout.split()
        self.assertEqual((status, sorted(dear & set(loaded))), ("6", []), ran.stderr)
