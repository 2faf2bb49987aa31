"""A night run's books, checksums and time limit. tests/operations runs it as a whole: by the
program, a stand-in, and signals.
"""

import os
import subprocess
import time
import unittest

from tests.support import DESK, Room, run_desk
from tilugba.night import books, sums
from tilugba.program import Stop

HANGS = "#!/bin/sh\nif [ $1 = sample ]; then echo contracts 1; else exec sleep 60; fi\n"


class Books(unittest.TestCase):
    def test_files_are_the_words_of_no_option(self) -> None:
        for words, places in [
            (("flows", "{}", "fix.csv"), [1, 2]),
            (("flows", "--until", "5", "{}", "--net", "{}.csv"), [3, 5]),
            (("flows", "--until=5", "{}"), [2]),
            (("value", "{}", "fix", "curve", "T=5", "--at", "0"), [1, 2, 3]),
            (("expand", "{}"), [1]),
        ]:
            self.assertEqual(books.places_of_files(words), places, words)

    def test_words_without_a_place(self) -> None:
        for words in ("flows", "fix.csv"), ("flows", "fix.csv", "--until", "{}"), (
            "sample", "{}"
        ), ("no", "{}"):
            with self.assertRaises(Stop) as caught:
                books.places_of_files(words)
            self.assertEqual(caught.exception.status, 70)

    def test_a_file_is_no_option(self) -> None:
        book = books.book_of("-x", ("flows", "{}", "--until", "{}"), [1])
        self.assertEqual(
            (book.words, book.files), (("flows", "./-x", "--until", "-x"), {1: "./-x"})
        )

    def test_names_on_a_line(self) -> None:
        for name, shown in ("a.txt", "a.txt"), ("a b", "'a b'"), ("a\nb", "$'a\\x0ab'"), (
            "\udcff", "$'\\xff'"
        ), ("é'", "$'é\\x27'"):
            self.assertEqual(books.shown(name), shown)


class Checksums(Room):
    def test_a_file_that_keeps_its_length_and_time(self) -> None:
        path, known = self.file("a", "one"), sums.Sums()
        first = known.of(str(path))
        before = path.stat()
        path.write_text("two")
        os.utime(path, ns=(before.st_atime_ns, before.st_mtime_ns))
        self.assertNotEqual(known.of(str(path)), first)
        self.assertIsNone(known.of(str(self.folder)))
        self.assertIsNone(known.of(str(self.folder / "none")))


class Limits(Room):
    def test_a_run_that_takes_too_long(self) -> None:
        program = self.script("hangs", HANGS)
        book = self.file("book", "any\n")
        begin = time.monotonic()
        ran = run_desk(
            "night-run",
            "--program",
            program,
            "--seconds",
            "0.2",
            self.folder / "out",
            "check",
            "{}",
            "--",
            book,
        )
        self.assertLess(time.monotonic() - begin, 30)
        self.assertEqual(
            (ran.status, ran.output),
            (70, "book: status 70\n1 book: 0 done, 0 done before, 1 failed\n"),
        )
        self.assertEqual((self.folder / "out" / "book.fault").read_text(), "status 70\n")

    def test_a_count_on_a_terminal(self) -> None:
        """On a terminal it says how many books are done, and takes the line away at the end."""
        program = self.script(
            "slow", "#!/bin/sh\nif [ $1 = sample ]; then echo contracts 1; else sleep 0.3; fi\n"
        )
        books = [self.file(f"{number}", "any\n") for number in range(3)]
        words = [
            "night-run",
            "--program",
            program,
            "--jobs",
            "1",
            self.folder / "out",
            "check",
            "{}",
            "--",
            *books,
        ]
        screen, terminal = os.openpty()
        ran = subprocess.run(
            [DESK / "tilugba-desk", *words], stdout=subprocess.PIPE, stderr=terminal
        )
        os.close(terminal)
        seen = os.read(screen, 10_000).decode()
        os.close(screen)
        self.assertEqual(
            (ran.returncode, ran.stdout), (0, b"3 books: 3 done, 0 done before, 0 failed\n")
        )
        self.assertRegex(seen, r"\rnight-run: [123] of 3 books, \d+ s")
        self.assertEqual(seen.split("\r")[-1], "")

    def test_words_that_do_not_do(self) -> None:
        for words in (), ("out",), ("out", "check", "{}"), ("out", "check", "{}", "--"), (
            "--jobs", "0", "out", "check", "{}", "--", "b"
        ):
            ran = run_desk("night-run", *words)
            self.assertEqual((ran.status, ran.output), (70, ""), words)
