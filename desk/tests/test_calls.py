"""The commands as functions, over the library and over the program: one behaviour, and each answer
is written again from its rows.
"""

import concurrent.futures
import datetime
import os
import pickle
import pkgutil
import tomllib
import unittest
from collections.abc import Callable
from decimal import Decimal
from pathlib import Path
from unittest import mock

import tilugba
from tests.support import EXAMPLES, TOP, Room, the_program
from tilugba import calls, engines, native
from tilugba.answer_rows import Flow, Named, Position, Verdict
from tilugba.calls import Calls

HEAD = (
    "portfolio 1;\namounts 2;\norigin 2026-01-05;\nparty A, B, C;\nasset EUR;\nnum FX : 4 in "
    "0.5000 .. 2.0000;\n"
)
LOAN = (
    f"{HEAD}contract loan = both(scale(100.00, pay(EUR, A, B)), "
    "after(90, scale(105.00, pay(EUR, B, A))));\n"
)
SPOT = (
    f"{HEAD}contract spot = "
    "after(2, scale(round(half_even, 2, (obs(FX, 0) * 10.00)), pay(EUR, A, B)));\n"
)
DAY = datetime.date(2026, 1, 5)
FIXED = [("FX", datetime.date(2026, 1, 7), Decimal("1.2345"))]
CURVE = [(0, 1), (30, Decimal("0.99"))]
ASKED = {"at": 0, "payer": "A", "receiver": "B", "asset": "EUR"}
FOLDERS = sorted(
    path.parent for top in (EXAMPLES, TOP / "tests/cases") for path in top.glob("*/command")
)


def the_library() -> Path:
    """The library that the tests call: that of the environment, of the package or of the clone."""
    named = os.environ.get(engines.LIBRARY_VARIABLE)
    places = [Path(named)] if named else [engines.HERE / native.FILE, TOP / "built" / native.FILE]
    for path in places:
        if path.is_file():
            return path
    raise unittest.SkipTest("there is no library, so the calls are tried over the program alone")


def over_program() -> Calls:
    return tilugba.over_program(the_program().path)


def over_library() -> Calls:
    return tilugba.over_library(the_library())


class Behaviour:
    """What holds over the library and over the program."""

    make: Callable[[], Calls]

    @classmethod
    def setUpClass(cls) -> None:
        cls.desk = cls.make()

    def test_flows(self) -> None:
        first, last = self.desk.flows(LOAN)
        self.assertEqual(first, Flow("loan", DAY, "A", "B", "EUR", Decimal("100.00")))
        self.assertEqual((last.day, str(last.amount)), (datetime.date(2026, 4, 5), "105.00"))
        self.assertEqual(self.desk.flows(LOAN, until=DAY), [first])
        self.assertEqual(self.desk.flows(LOAN, until=datetime.datetime(2026, 1, 5)), [first])
        self.assertEqual(self.desk.flows(LOAN, contract="loan", until="89"), [first])
        self.assertEqual(self.desk.flows(LOAN, net=True)[0].name, "*")
        self.assertEqual(self.desk.flows(LOAN.replace("origin 2026-01-05;\n", ""))[1].day, 90)

    def test_a_text_is_bytes_or_a_text_or_a_file(self) -> None:
        path = self.file("book.txt", LOAN)
        table = self.file("fixings.csv", "label,day,value\n")
        for portfolio in (LOAN, LOAN.encode(), bytearray(LOAN.encode()), path):
            self.assertEqual(len(self.desk.flows(portfolio, table)), 2)
        with self.assertRaises(tilugba.ParseError):
            self.desk.flows(str(path))

    def test_positions_settle_and_check(self) -> None:
        self.assertEqual(
            self.desk.positions(LOAN, until=0)[0], Position(DAY, "A", "EUR", Decimal("-100.00"))
        )
        self.assertEqual(
            self.desk.settle(LOAN, until=0), [Flow("*", DAY, "A", "B", "EUR", Decimal("100.00"))]
        )
        wrong = LOAN + "contract bad = scale(true, pay(EUR, A, B));\n"
        told = self.desk.check(wrong)
        self.assertEqual(told[0], Verdict("loan", True, 0, 2, Decimal("205.00"), 91))
        self.assertEqual(told[1], Verdict("bad", False, rule="sort", node=0))
        self.assertEqual(self.desk.check(HEAD + "contract c = zero;\n")[0].start, None)

    def test_advance_and_novate(self) -> None:
        advanced = self.desk.advance(LOAN, [], to=30)
        self.assertEqual(advanced.due, self.desk.flows(LOAN, until=29))
        self.assertEqual(self.desk.flows(advanced.portfolio), self.desk.flows(advanced.text))
        novated = self.desk.novate(LOAN, [], to=30, contract="loan", old="A", new="C")
        self.assertEqual(self.desk.flows(novated.portfolio)[0].receiver, "C")

    def test_value_and_scenarios(self) -> None:
        code = self.desk.payoff(LOAN, contract="loan")
        self.assertNotEqual(code, self.desk.payoff(LOAN, contract="loan", plain=True))
        self.assertEqual(str(self.desk.value(code, [], CURVE, **ASKED)), "-3.95000000000")
        code = self.desk.payoff(SPOT, contract="spot")
        table = [("up", "FX", 2, Decimal("2")), ("down", "FX", 2, Decimal("1.5"))]
        found = self.desk.scenarios(code, table, CURVE, **ASKED, mean="half_even")
        self.assertEqual([it.name for it in found.values], ["up", "down"])
        self.assertEqual((found.total, found.mean), (Decimal(35), Decimal("17.5")))
        self.assertEqual(
            (found.least, found.greatest), (Named("down", Decimal(15)), Named("up", Decimal(20)))
        )

    def test_settings(self) -> None:
        text = LOAN.replace("contract", "template T = 90;\ncontract").replace("after(90", "after(T")
        code = self.desk.payoff(text, contract="loan")
        near, far = (self.desk.value(code, [], CURVE, {"T": days}, **ASKED) for days in (10, 90))
        self.assertEqual((near, far), (Decimal(-5), Decimal("-3.95")))

    def test_texts(self) -> None:
        self.assertTrue(self.desk.migrate(LOAN).startswith("portfolio 2;\n"))
        plans = (
            HEAD.replace("portfolio", "schedules")
            + "leg rent = 25.00 of EUR from A to B first 0 every 30 times 4;\n"
        )
        self.assertEqual(len(self.desk.flows(self.desk.expand(plans))), 4)
        self.assertEqual((self.desk.sample(50).contracts, self.desk.sample(50).lines), (50, 50))

    def test_run_has_names_of_files(self) -> None:
        answer = self.desk.run(["flows", "my book", "--until=0"], {"my book": LOAN, "other": b""})
        self.assertEqual((answer.status, answer.output), (0, b"loan,2026-01-05,A,B,EUR,100.00\n"))
        answer = self.desk.run(["flows", "--contract", "loan", "--", "loan"], {"loan": LOAN})
        self.assertEqual((answer.status, len(answer.output.splitlines())), (0, 2))

    def test_no_file_is_opened(self) -> None:
        path = self.file("book.txt", LOAN)
        self.assertEqual(self.desk.run(["flows", str(path)]).output, b"fault read 1\n")
        self.assertEqual(self.desk.run([]).output, b"fault usage\n")
        self.assertEqual(self.desk.run(["flows", b"\xff"]).status, 13)
        with self.assertRaises(ValueError):
            self.desk.run(["flows", "a\0b"])

    def test_days_of_calls(self) -> None:
        for day in (True, 1.0, None):
            with self.subTest(day=day), self.assertRaises((TypeError, tilugba.UsageError)):
                self.desk.advance(LOAN, [], to=day)

    def test_what_is_no_text(self) -> None:
        for text in (None, 5, [LOAN]):
            with self.subTest(text=text), self.assertRaisesRegex(TypeError, "a text is a str, "):
                self.desk.check(text)

    def test_no_word_is_taken_for_an_option(self) -> None:
        with self.assertRaises(tilugba.UsageError):
            self.desk.flows(LOAN, contract="--net")

    def raised(
        self, kind: type[tilugba.TilugbaError], call: Callable[[], object]
    ) -> tilugba.TilugbaError:
        """What a call raises. It crosses a border between processes as it is."""
        with self.assertRaises(kind) as caught:
            call()
        error = caught.exception
        again = pickle.loads(pickle.dumps(error))
        self.assertEqual(
            (type(again), again.status, str(again), vars(again)),
            (kind, error.status, str(error), vars(error)),
        )
        return error

    def parts(
        self, kind: type[tilugba.TilugbaError], call: Callable[[], object], *names: str
    ) -> tuple[object, ...]:
        error = self.raised(kind, call)
        return (error.status, *(getattr(error, name) for name in names))

    def test_each_status_has_its_class(self) -> None:
        desk, bad = self.desk, LOAN.replace("100.00", "100.005")
        head = "label,day,value\n"
        self.assertEqual(
            self.parts(tilugba.Refused, lambda: desk.flows(bad), "name", "rule", "node"),
            (1, "loan", "scale", 1),
        )
        self.assertEqual(self.parts(tilugba.UsageError, lambda: desk.sample(0)), (2,))
        self.assertEqual(
            self.parts(tilugba.ReadError, lambda: desk.flows(Path("/none"), []), "place"), (3, 1)
        )
        self.assertEqual(
            self.parts(tilugba.ReadError, lambda: desk.flows(LOAN, Path("/none")), "place"), (3, 2)
        )
        self.assertEqual(
            self.parts(tilugba.TooLong, lambda: desk.check(b" " * 16_777_217), "place"), (5, 1)
        )
        self.assertEqual(
            self.parts(
                tilugba.ParseError, lambda: desk.check(LOAN + ";"), "kind", "line", "column"
            ),
            (6, "syntax", 8, 1),
        )
        row = ("place", "record", "kind", "earlier")
        self.assertEqual(
            self.parts(tilugba.RowError, lambda: desk.flows(LOAN, head + "GX,0,1\n"), *row),
            (7, 2, 2, "label", None),
        )
        twice = [("FX", 0, 1), ("FX", DAY, 2)]
        self.assertEqual(
            self.parts(tilugba.RowError, lambda: desk.flows(LOAN, twice), *row),
            (7, 2, 3, "conflict", 2),
        )
        missing = ("label", "day", "date", "scenario")
        wanted = (8, "FX", 2, datetime.date(2026, 1, 7), None)
        self.assertEqual(
            self.parts(tilugba.MissingFixing, lambda: desk.flows(SPOT), *missing), wanted
        )
        numbers = SPOT.replace("origin 2026-01-05;\n", "")
        self.assertEqual(
            self.parts(tilugba.MissingFixing, lambda: desk.flows(numbers), *missing),
            (8, "FX", 2, None, None),
        )
        code, table = desk.payoff(SPOT, contract="spot"), [("up", "FX", 1, 1)]
        lacks = lambda: desk.scenarios(code, table, CURVE, **ASKED, mean="floor")
        self.assertEqual(
            self.parts(tilugba.MissingFixing, lacks, *missing),
            (8, "FX", 2, datetime.date(2026, 1, 7), "up"),
        )
        self.assertEqual(
            self.parts(tilugba.UnknownName, lambda: desk.flows(LOAN, contract="other"), "name"),
            (10, "other"),
        )
        self.assertEqual(
            self.parts(tilugba.DayOutOfRange, lambda: desk.flows(LOAN, until=2_000_000), "word"),
            (11, "2000000"),
        )
        great = HEAD + "contract c = scale(1000000000000000000000000.00, pay(EUR, A, B));\n"
        code = desk.payoff(great, contract="c")
        table = [(f"s{number}", "FX", 0, 1) for number in range(11)]
        many = lambda: desk.scenarios(code, table, CURVE, **ASKED, mean="floor")
        self.assertEqual(self.parts(tilugba.TooManyScenarios, many, "count"), (12, 11))
        self.assertEqual(
            self.parts(tilugba.NotUtf8, lambda: desk.flows(LOAN, contract="\udcff")), (13,)
        )

    def test_classes_are_also_those_of_python(self) -> None:
        self.assertTrue(
            issubclass(tilugba.MissingFixing, LookupError)
            and issubclass(tilugba.ParseError, ValueError)
        )
        self.assertTrue(
            issubclass(tilugba.OutOfMemory, MemoryError) and issubclass(tilugba.ReadError, OSError)
        )

    def test_threads_at_once(self) -> None:
        one = lambda number: self.desk.flows(LOAN.replace("105.00", f"{number}.00"))[1].amount
        with concurrent.futures.ThreadPoolExecutor(4) as threads:
            self.assertEqual(
                list(threads.map(one, range(1, 41))),
                [Decimal(f"{number}.00") for number in range(1, 41)],
            )

    def test_each_answer_is_written_again_from_its_rows(self) -> None:
        self.assertGreater(len(FOLDERS), 100)
        for folder in FOLDERS:
            with self.subTest(folder=str(folder.relative_to(TOP))):
                self.try_folder(folder)

    def try_folder(self, folder: Path) -> None:
        """An example as it must be, and its text out of its rows."""
        words = (folder / "command").read_bytes().splitlines()
        files = {
            word: folder / os.fsdecode(word)
            for word in words
            if word and (folder / os.fsdecode(word)).is_file()
        }
        status = folder / "status"
        wanted = int(status.read_text()) if status.exists() else 0
        answer = self.desk.run(words, files)
        self.assertEqual((answer.status, answer.output), (wanted, (folder / "output").read_bytes()))
        if (
            wanted == 0
            or (wanted == 1 and words[0] == b"check" and answer.fault and not answer.fault.line)
        ):
            self.assertEqual(again(words[0].decode(), answer.text), answer.text)


def again(command: str, text: str) -> str:
    """The text of an answer, written out of its rows."""
    stub = mock.Mock()
    stub.answer.return_value = tilugba.Answer(0, text.encode())
    desk = Calls(stub)
    asked = {**ASKED, "mean": "floor"}
    told = {
        "check": lambda: desk.check("").text,
        "flows": lambda: desk.flows("").text,
        "positions": lambda: desk.positions("").text,
        "settle": lambda: desk.settle("").text,
        "advance": lambda: desk.advance("", [], to=0).text,
        "novate": lambda: desk.novate("", [], to=0, contract="", old="", new="").text,
        "payoff": lambda: desk.payoff("", contract=""),
        "value": lambda: f"{desk.value('', [], [], **ASKED):f}\n",
        "scenarios": lambda: desk.scenarios("", [], [], **asked).text,
        "migrate": lambda: desk.migrate(""),
        "expand": lambda: desk.expand(""),
        "sample": lambda: desk.sample(1).text,
    }
    return told[command]()


class OverProgram(Behaviour, Room):
    make = staticmethod(over_program)


class OverLibrary(Behaviour, Room):
    make = staticmethod(over_library)

    def test_a_text_that_is_longer_than_the_room(self) -> None:
        book = (
            HEAD
            + "".join(
                f"contract c{day} = after({day}, scale(1.00, pay(EUR, A, B)));\n"
                for day in range(5000)
            )
        )
        for _ in range(2):
            self.assertEqual(len(self.desk.flows(book)), 5000)

    def test_another_file_is_no_library(self) -> None:
        for path in (self.file("none.so", "none"), self.folder / "missing.so"):
            with self.assertRaises(ImportError) as caught:
                tilugba.over_library(path)
            self.assertIn(str(path), str(caught.exception))

    def test_it_is_found_before_the_program(self) -> None:
        with mock.patch.dict(os.environ, {engines.LIBRARY_VARIABLE: str(the_library())}):
            self.assertIsInstance(engines.find(), engines.Library)
        unset = {engines.LIBRARY_VARIABLE: "", "TILUGBA": str(the_program().path)}
        with mock.patch.dict(os.environ, unset):
            self.assertIsInstance(engines.find(), engines.ByProgram)


def last_amount(number: int) -> Decimal:
    """Of a worker: what the loan pays back."""
    return tilugba.flows(LOAN.replace("105.00", f"{number}.00"))[-1].amount


class Children(Room):
    """Pools of processes, and children with limits."""

    def setUp(self) -> None:
        super().setUp()
        self.enterContext(mock.patch.dict(os.environ, {"TILUGBA": str(the_program().path)}))

    def test_a_pool_that_spawns(self) -> None:
        with tilugba.pool(2) as workers:
            self.assertEqual(
                list(workers.map(last_amount, (1, 2))), [Decimal("1.00"), Decimal("2.00")]
            )
            with self.assertRaises(tilugba.DayOutOfRange):
                workers.submit(tilugba.flows, LOAN, until=2_000_000).result()

    def test_a_child_answers_as_the_process_does(self) -> None:
        limited = tilugba.limited(seconds=120, memory=1 << 30)
        self.assertEqual(limited.flows(LOAN)[0].amount, Decimal("100.00"))
        with self.assertRaises(tilugba.ParseError):
            limited.flows("")

    def test_a_call_that_takes_too_long(self) -> None:
        slow = self.script("slow", "#!/bin/sh\nexec sleep 600\n")
        there = {"TILUGBA": str(slow), engines.LIBRARY_VARIABLE: ""}
        with mock.patch.dict(os.environ, there), self.assertRaises(tilugba.TimeLimit) as caught:
            tilugba.limited(seconds=2).flows(LOAN)
        self.assertEqual(str(caught.exception), "the call was ended: it took more than 2 seconds")
        self.assertIsInstance(caught.exception, TimeoutError)

    def test_a_call_without_enough_memory(self) -> None:
        book = (
            HEAD
            + "".join(f"contract c{day} = scale(1.00, pay(EUR, A, B));\n" for day in range(200_000))
        )
        with mock.patch.dict(
            os.environ, {engines.LIBRARY_VARIABLE: str(the_library())}
        ), self.assertRaises(tilugba.OutOfMemory):
            tilugba.limited(seconds=300, memory=4 << 20).flows(book)


class Package(Room):
    """What the package offers."""

    def test_no_module_hides_a_function(self) -> None:
        modules = {module.name for module in pkgutil.iter_modules(tilugba.__path__)}
        self.assertEqual(modules & set(tilugba.__all__), set())

    def test_each_command_is_a_function(self) -> None:
        with open(TOP / "commands.toml", "rb") as file:
            commands = {command["name"] for command in tomllib.load(file)["command"]}
        self.assertEqual(commands - set(tilugba.__all__), set())
        self.assertGreater(len(commands), 10)

    def test_each_name_is_there(self) -> None:
        for name in tilugba.__all__:
            self.assertTrue(getattr(tilugba, name).__doc__, name)
        self.assertTrue(set(tilugba.__all__) <= set(dir(tilugba)))
        with self.assertRaises(AttributeError):
            tilugba.none

    def test_an_older_processor_is_refused_in_a_sentence(self) -> None:
        with mock.patch.object(native, "CPUINFO", os.devnull):
            native.refuse_old_processor()
        old = self.file("cpuinfo", "processor : 0\nflags : fpu sse2 cx16 pni ssse3 lahf_lm\n")
        with mock.patch.object(native, "CPUINFO", str(old)), self.assertRaises(
            ImportError
        ) as caught:
            native.refuse_old_processor()
        told = (
            "the library of tilugba needs a processor of x86-64-v2, and this one lacks popcnt, "
            "sse4_1, sse4_2"
        )
        self.assertEqual(str(caught.exception), told)

    def test_without_library_and_program(self) -> None:
        gone = {engines.LIBRARY_VARIABLE: "", "TILUGBA": "", "PATH": ""}
        found = mock.patch.object(engines, "library_path", return_value=None)
        none = mock.patch.object(
            engines.program, "find", side_effect=engines.Stop(70, "there is no program")
        )
        with mock.patch.dict(os.environ, gone), found, none, self.assertRaises(
            tilugba.NoAnswer
        ) as caught:
            Calls(calls.Found()).flows(LOAN)
        self.assertIn("there is no program", str(caught.exception))
