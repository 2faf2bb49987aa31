"""Layouts: the same tokens and comments, lines of at most 100 columns, and a text that says the
same to the program.
"""

import os
import random
import stat
import unittest

from tests.support import Room, run_desk, the_program
from tests.texts import CODE, PORTFOLIO, SCHEDULES, examples
from tilugba import formatting
from tilugba.texts import tokens
from tilugba.texts.reading import Reading

TEXT = """portfolio 1; amounts 2;   # two decimals
# parties
party A, B; asset EUR;                # é behind

num FX : 4 in -0.5000 .. 2.0000; flag F;


# a contract
contract c = let x = (obs(FX, -3) - -1.5) in after(5, if (x > 1) within 3 then both(pay(EUR, A, B), both(pay(EUR, A, B), # inner
  pay(EUR, B, A)))
  # own line
  else if not(obs(F, 0)) within 3 then scale(round(half_even, 2, if((x > 1), (x + 2), 3)), both(pay(EUR, A, B), zero)) else zero); # end
"""
LAID = """portfolio 1;
amounts 2;  # two decimals
# parties
party A, B;
asset EUR;  # é behind

num FX : 4 in -0.5000 .. 2.0000;
flag F;

# a contract
contract c = let x = (obs(FX, -3) - -1.5) in
  after(5,
    if (x > 1) within 3
    then both(
      pay(EUR, A, B),
      both(
        pay(EUR, A, B),  # inner
        pay(EUR, B, A)))
    # own line
    else if not(obs(F, 0)) within 3
    then scale(round(half_even, 2, if((x > 1), (x + 2), 3)), both(pay(EUR, A, B), zero))
    else zero);  # end
"""


def laid_out(text: str) -> str:
    return formatting.formatted(Reading(text.encode()))


class Layouts(unittest.TestCase):
    def test_a_text(self) -> None:
        self.assertEqual(laid_out(TEXT), LAID)

    def test_columns_of_comments_are_kept(self) -> None:
        text = "portfolio 1;   # first\namounts   2;    # second\nparty A;# third\n"
        self.assertEqual(
            laid_out(text), "portfolio 1;   # first\namounts 2;      # second\nparty A;  # third\n"
        )

    def test_a_layout_stays(self) -> None:
        for example in self.whole():
            laid = formatting.formatted(Reading(example.data, example.grammar))
            with self.subTest(example=example.name):
                self.assertEqual(
                    formatting.formatted(Reading(laid.encode(), example.grammar)), laid
                )

    def whole(self) -> list:
        found = [it for it in examples() if Reading(it.data, it.grammar).fault is None]
        self.assertEqual({it.grammar for it in found}, {PORTFOLIO, CODE, SCHEDULES})
        return found

    def test_lines_are_short(self) -> None:
        """A longer line has one token, or a comment that stands alone."""
        for example in self.whole():
            for line in formatting.formatted(Reading(example.data, example.grammar)).splitlines():
                if len(line) > formatting.WIDTH:
                    with self.subTest(example=example.name, line=line):
                        self.assertTrue(
                            line.lstrip().startswith("#") or len(list(tokens.tokens(line))) <= 2
                        )

    def test_the_program_reads_the_same(self) -> None:
        run = the_program().run
        commands = {PORTFOLIO: "migrate", SCHEDULES: "expand"}
        for example in self.whole():
            if example.grammar in commands:
                laid = formatting.formatted(Reading(example.data, example.grammar)).encode()
                command = commands[example.grammar]
                with self.subTest(example=example.name):
                    self.assertEqual(run(command, laid).output, run(command, example.data).output)

    def test_random_blanks_and_comments_are_kept(self) -> None:
        chance = random.Random(4)
        gaps = [
            " ",
            "\n",
            "\n\n\n",
            "\t",
            "\r\n",
            " # a comment\n",
            "\n# é alone\n",
            "#\n",
            "\n  # far  \n\n",
        ]
        for example in self.whole():
            text = "".join(
                it.text + chance.choice(gaps)
                for it in tokens.tokens(example.data.decode("latin-1"))
            )
            reading = Reading(text.encode(), example.grammar)
            with self.subTest(example=example.name, text=text):
                laid = formatting.formatted(reading)
                self.assertEqual(formatting.marks_of(laid), formatting.marks_of(text))
                self.assertEqual(
                    formatting.formatted(Reading(laid.encode(), example.grammar)), laid
                )

    def test_a_long_text_is_laid_out(self) -> None:
        deep = (
            "portfolio 1; amounts 2; party A; asset E; contract c = "
            + "both(zero, " * 199
            + "zero"
            + ")" * 199
            + ";"
        )
        self.assertLessEqual(max(map(len, laid_out(deep).splitlines())), 100)
        long = (
            "portfolio 1; amounts 2; party "
            + ", ".join("a" * 60 + str(it) for it in range(50))
            + ";"
        )
        self.assertLessEqual(max(map(len, laid_out(long).splitlines())), 100)


class Command(Room):
    def test_it_prints(self) -> None:
        path = self.file("book.txt", TEXT)
        ran = run_desk("format", path)
        self.assertEqual((ran.status, ran.output, ran.errors), (0, LAID, ""))
        self.assertEqual(path.read_text(), TEXT)

    def test_in_place(self) -> None:
        path = self.file("book.txt", TEXT)
        path.chmod(0o640)
        link = self.folder / "link"
        link.symlink_to(path)
        self.assertEqual(run_desk("format", link, "--in-place").status, 0)
        self.assertEqual(path.read_text(), LAID)
        self.assertTrue(link.is_symlink())
        self.assertEqual(stat.S_IMODE(path.stat().st_mode), 0o640)
        self.assertEqual(sorted(it.name for it in self.folder.iterdir()), ["book.txt", "link"])

    def test_a_text_with_a_fault_is_not_touched(self) -> None:
        path = self.file("book.txt", "portfolio 1;amounts 2;party;")
        ran = run_desk("format", path, "--in-place")
        self.assertEqual((ran.status, ran.output), (6, ""))
        self.assertIn("book.txt:1:28: syntax", ran.errors)
        self.assertEqual(path.read_text(), "portfolio 1;amounts 2;party;")

    @unittest.skipIf(
        os.geteuid() == 0, "a folder that may not be written, since root may write everywhere"
    )
    def test_a_folder_that_may_not_be_written(self) -> None:
        path = self.file("book.txt", TEXT)
        self.folder.chmod(0o500)
        self.addCleanup(self.folder.chmod, 0o700)
        ran = run_desk("format", path, "--in-place")
        self.assertEqual(ran.status, 4)
        self.assertEqual(path.read_text(), TEXT)


if __name__ == "__main__":
    unittest.main()
