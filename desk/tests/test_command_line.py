"""Words of the command line: they are taken or refused as the program does, and what is wrong is
told.
"""

import random
import unittest

from tests.support import the_program
from tilugba import command_line
from tilugba.command_line import FORMS, WrongWords
from tilugba.program import Status

PIECES = [
    "--until",
    "--net",
    "--to",
    "--at",
    "--from",
    "--asset",
    "--contract",
    "--mean",
    "--old",
    "--new",
    "--plain",
    "--until=3",
]
PIECES += [
    "--net=1",
    "--to=",
    "--",
    "-",
    "-x",
    "",
    "5",
    "2026-01-05",
    "2026-02-30",
    "-5",
    "1234567890",
    "A",
    "EUR",
    "if",
    "floor",
    "T=3",
]
PIECES += [
    "T=4",
    "S=100001",
    "=3",
    "T=",
    "T",
    "10001",
    "0",
    "1e3",
    "é",
    "--unti",
    "--contract=A",
    "a" * 65,
    "half_even",
]


class Words(unittest.TestCase):
    def is_taken(self, words: list[str]) -> bool:
        try:
            command_line.read(words)
        except WrongWords:
            return False
        return True

    def test_words_are_taken_as_the_program_takes_them(self) -> None:
        """Of files that are not there the program says that they are not read, if it takes the
        words.
        """
        run, chance = the_program().run, random.Random(5)
        taken = 0
        for _ in range(1_500):
            words = self.some_words(chance)
            answer = run(*words)
            with self.subTest(words=words):
                self.assertEqual(self.is_taken(words), answer.status != Status.USAGE)
            taken += answer.status != Status.USAGE
        self.assertGreater(taken, 300)

    def some_words(self, chance: random.Random) -> list[str]:
        """Words of a command that may be right, with up to two changes."""
        command = chance.choice(list(FORMS))
        form = FORMS[command]
        values = {"DAY": "5", "NAME": "A", "MODE": "floor", "": None}
        words = [
            f"/no/{it}" if it != "NUMBER" else "7"
            for it in form.files[: chance.randint(form.least, len(form.files))]
        ]
        for option, kind in form.options.items():
            if option in form.required or chance.random() < 0.4:
                at = chance.randint(0, len(words)) if chance.random() < 0.3 else len(words)
                words[at:at] = [option] if values[kind] is None else [option, values[kind]]
        for _ in range(chance.choice((0, 0, 1, 1, 2))):
            at = chance.randint(0, len(words))
            words[at : at + chance.randint(0, 1)] = [chance.choice(PIECES)]
        return [command, *words] if chance.random() < 0.97 else words

    def test_what_is_wrong(self) -> None:
        between = ["--at", "5", "--from", "A", "--to", "B"]
        for words, said in [
            ([], "a command is missing"),
            (["--help"], "the program has no --help"),
            (["chekc", "book"], "there is no command chekc; perhaps check"),
            (["flows", "book", "--util", "3"], "--util is no option of flows; perhaps --until"),
            (["flows", "book", "--until"], "--until has no value"),
            (["flows", "book", "--until", "2026-02-30"], "2026-02-30 behind --until is not a day"),
            (["flows", "book", "--contract", "zero"], "and zero is a word of the language"),
            (["flows", "book", "--net", "--net"], "--net is given twice"),
            (["check", "book", "fix"], "fix is a word too many"),
            (["advance", "book", "--to", "5"], "FIX is missing"),
            (["advance", "book", "fix"], "--to is missing"),
            (["value", "code", "fix", "curve", *between], "--asset is missing"),
            (["value", "code", "fix", "curve", "T=x", *between], "T=x is not T=N"),
            (["value", "code", "fix", "curve", "T=100001", *between], "T=100001 is not T=N"),
            (["value", "code", "fix", "curve", "T=1", "T=2", *between], "T is set twice"),
            (["sample", "10001"], "10001 is not a number from 1 to 10,000"),
        ]:
            with self.subTest(words=words), self.assertRaises(WrongWords) as raised:
                command_line.read(words)
            self.assertIn(said, str(raised.exception))

    def test_the_forms(self) -> None:
        told = FORMS["value"].told()
        self.assertEqual(told, "value CODE FIX CURVE [T=N].. --at DAY --from P --to Q --asset A")
        self.assertEqual(
            FORMS["flows"].told(), "flows PORT [FIX] [--until DAY] [--contract NAME] [--net]"
        )
