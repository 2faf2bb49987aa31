"""The parser beside the program: the first fault of example texts and of random edits, and what may
stand at its place.
"""

from __future__ import annotations

import os
import random
import re
import tempfile
import unittest
from concurrent.futures import ProcessPoolExecutor
from itertools import chain
from pathlib import Path

from tests.support import Room
from tests.texts import Example, Judge, Told, candidates, edited, examples, token_of
from tilugba.texts.grammar import CODE, PORTFOLIO, SCHEDULES, Grammar
from tilugba.texts.machine import Fault
from tilugba.texts.names import NameSet
from tilugba.texts.reading import Memory, Reading
from tilugba.texts.tokens import Place

EDITS = 3_000
# A folder in memory, if there is one: some file systems take a while for each file that is cut, and
# here there are some 300,000.
IN_MEMORY = "/dev/shm" if os.access("/dev/shm", os.W_OK) else None
KINDS = {"none", "syntax", "number", "date", "deep", "range", "twice", "unknown", "utf8"}


def told(reading: Reading, fault: Fault | None) -> Told | None:
    return Told(fault.kind, reading.source.place(fault.at)) if fault else None


def some_edits(seed: int, count: int) -> list[tuple[Example, bytes]]:
    """Random edits, as many of each grammar."""
    chance = random.Random(seed)
    kinds = [
        [it for it in examples() if it.grammar is grammar]
        for grammar in (PORTFOLIO, PORTFOLIO, CODE, SCHEDULES)
    ]
    chosen = [chance.choice(chance.choice(kinds)) for _ in range(count)]
    return [(example, edited(example.data, chance)) for example in chosen]


def compared(data: bytes, grammar: Grammar, judge: Judge) -> tuple[str, str]:
    """The kind of the first fault and what may stand at its place, when the program says the same
    of both.
    """
    reading = Reading(data, grammar)
    fault, mine = reading.fault, told(reading, reading.fault)
    says = judge.fault(data, grammar)
    if mine != says:
        raise AssertionError(f"the parser says {mine}, the program {says}, of {data!r}")
    if fault is None or fault.kind == "utf8":
        return fault.kind if fault else "none", ""
    before, line = data[: fault.at] + b"\n", reading.source.place(fault.at).line + 1
    for written in candidates(reading):
        found = judge.fault_with(before, written, grammar)
        stands = found is None or found.place != Place(line, 1)
        if stands != fault.offers.have(token_of(written)):
            raise AssertionError(
                f"{written!r} {'may' if stands else 'may not'} stand at the end of {before!r}, but "
                f"{fault.offers}"
            )
    return fault.kind, f"{grammar.name}: {fault.offers.told(most=0)}"


def bad_origins() -> list[tuple[Example, bytes]]:
    """Each example that has an origin, with dates that are none or out of range: random edits hit
    few.
    """
    origin = re.compile(rb"(?<=origin )[0-9]{4}-[0-9]{2}-[0-9]{2}")
    dates = (b"2026-02-30", b"1899-12-31", b"3000-01-01")
    found = [it for it in examples() if origin.search(it.data)]
    return [(it, origin.sub(dates[number % 3], it.data)) for number, it in enumerate(found)]


def compare_some(number: int, texts: list[bytes]) -> list[tuple[str, str]]:
    """Compares the edits of an example, which often have the same before the fault."""
    with tempfile.TemporaryDirectory(dir=IN_MEMORY) as folder:
        judge = Judge(Path(folder))
        return [compared(text, examples()[number].grammar, judge) for text in texts]


class BesideTheProgram(Room):
    def test_all_examples(self) -> None:
        self.assertEqual({it.grammar for it in examples()}, {PORTFOLIO, CODE, SCHEDULES})
        judge = Judge(self.folder)
        for example in examples():
            with self.subTest(example=example.name):
                reading = Reading(example.data, example.grammar)
                self.assertEqual(
                    told(reading, reading.fault), judge.fault(example.data, example.grammar)
                )

    def test_random_edits(self) -> None:
        edits: dict[str, list[bytes]] = {it.name: [] for it in examples()}
        for example, text in [*some_edits(1, EDITS), *bad_origins()]:
            edits[example.name].append(text)
        with ProcessPoolExecutor() as pool:
            some = pool.map(compare_some, range(len(edits)), edits.values())
            found = list(chain.from_iterable(some))
        self.assertGreater(len(found), EDITS)
        self.assertEqual({kind for kind, _ in found}, KINDS)
        self.assertGreater(len({place for _, place in found}), 150)


class Remembered(unittest.TestCase):
    def test_what_was_read_before_stays_right(self) -> None:
        """A text is edited step by step, and is read each time over what was read of the others."""
        chance = random.Random(3)
        for example in examples():
            memory, data = Memory(), example.data
            for _ in range(8):
                fresh, again = Reading(data, example.grammar), Reading(
                    data, example.grammar, memory
                )
                with self.subTest(example=example.name, data=data):
                    self.assertEqual(
                        [told(fresh, it) for it in fresh.faults()],
                        [told(again, it) for it in again.faults()],
                    )
                data = edited(data, chance) if chance.random() < 0.7 else example.data

    def test_only_what_changed_is_read(self) -> None:
        head = "portfolio 1; amounts 2; party A; asset E;\n"
        lines = [f"contract c{number} = zero;\n" for number in range(50)]
        memory = Memory()
        self.assertIsNone(Reading((head + "".join(lines)).encode(), memory=memory).fault)
        [read] = memory.under.values()
        before = len(read)
        lines[20] = "contract c20 = zerro;\n"
        reading = Reading((head + "".join(lines)).encode(), memory=memory)
        self.assertEqual(told(reading, reading.fault), Told("syntax", Place(22, 16)))
        self.assertEqual(len(read) - before, 1)


BOOK = """portfolio 2;
amounts 2;
origin 2026-01-05;
party A, B;
asset EUR, JPY : 0;
num FX : 4 in -0.5 .. 2.0000;
flag F;
template T = 30;
contract c = let x = (obs(FX, -3) - -1.5) in after(T + 5, if (x > 1) within 3 then pay(EUR, A, B) else zero);
"""


class Trees(unittest.TestCase):
    def setUp(self) -> None:
        self.reading = Reading(BOOK.encode())
        self.assertIsNone(self.reading.fault)

    def test_declarations(self) -> None:
        declared = self.reading.declared
        self.assertEqual((declared.version, declared.amounts, declared.start), (2, 2, 0))
        self.assertEqual(declared.numbers() + declared.flags(), ["FX", "F"])
        label = declared.names(NameSet.LABEL)["FX"]
        self.assertEqual((label.decimals, label.low, label.high), (4, -5_000, 20_000))
        self.assertEqual(declared.names(NameSet.ASSET)["JPY"].decimals, 0)
        self.assertEqual(declared.names(NameSet.TEMPLATE)["T"].days, 30)

    def test_nodes_are_in_order_with_their_bytes(self) -> None:
        statements = {
            it.name: (at, it) for at, it in self.reading.statements() if it.word == "contract"
        }
        at, contract = statements["c"]
        nodes = [self.reading.text[at + it.at : at + it.end] for it in contract.term.nodes()]
        self.assertEqual(nodes[1:5], ["(obs(FX, -3) - -1.5)", "obs(FX, -3)", "-1.5", nodes[4]])
        self.assertTrue(nodes[0].startswith("let x = ") and nodes[0].endswith("zero)"))
        self.assertTrue(nodes[4].startswith("after(T + 5, if"))
        self.assertEqual(nodes[5:], [nodes[5], "(x > 1)", "x", "1", "pay(EUR, A, B)", "zero"])

    def test_arguments_and_bound_names(self) -> None:
        at, contract = next(
            (at, it) for at, it in self.reading.statements() if it.word == "contract"
        )
        let, operation, read, number, after, choice, _, variable, *_ = contract.term.nodes()
        roles = ("binder", "operator", "label", "offset", "number")
        told_by_each = [it.told(*roles) for it in (let, operation, read, number)]
        self.assertEqual(told_by_each, [["x"], ["-"], ["FX", "-3"], ["-1.5"]])
        self.assertEqual(after.told("template", "days") + choice.told("days"), ["T", "5", "3"])
        self.assertEqual(variable.binder, let.arguments[0].at)

    def test_each_statement_has_its_own_fault(self) -> None:
        text = (
            BOOK.replace("party A, B;", "party A B;").replace("flag F;", "flag;")
            + "contract d = zer;\ncontract c = zero\n"
        )
        reading = Reading(text.encode())
        found = [f"{it.kind} {reading.source.place(it.at).line}" for it in reading.faults()]
        self.assertEqual(found, ["syntax 4", "syntax 7", "unknown 9", "syntax 10", "twice 11"])


if __name__ == "__main__":
    unittest.main()
