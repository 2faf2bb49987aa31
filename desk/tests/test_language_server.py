"""The language server by its protocol: faults, places behind characters of several bytes, hovers,
names, completion, formatting.
"""

from __future__ import annotations

import io
import json
import random
import subprocess
import sys
import time
import unittest
from unittest import mock

from tests.support import DESK, Room, the_program, slowness
from tests.test_format import LAID, TEXT
from tilugba import formatting
from tilugba.editor.documents import Document
from tilugba.editor.protocol import Connection
from tilugba.editor.server import Server
from tilugba.program import Program

URI = "file:///book.txt"
BOOK = """portfolio 1;
amounts 2;
origin 2026-01-05;
party Desk, Bank;  # é € 𝄞
asset EUR;
num FX : 4 in 0.5000 .. 2.0000;
flag F;
template T = 30;
contract c = let x = obs(FX, 0) in after(T, if (obs(FX, 0) > x) within 0
    then /* é € 𝄞 */ pay(EUR, Desk, Bank) else zero);
""".replace("/* é € 𝄞 */", "# é € 𝄞\n    ")


class Session(Room):
    """A session with a server in this process: messages go in at once, and all answers come out."""

    def setUp(self) -> None:
        super().setUp()
        self.program = the_program()

    def talk(
        self, *messages: tuple[str, dict] | tuple[str, dict, int], program: Program | None = None
    ) -> list[dict]:
        stream = io.BytesIO()
        writer = Connection(io.BytesIO(), stream)
        for method, params, *number in messages:
            writer.write(
                {"method": method, "params": params} | ({"id": number[0]} if number else {})
            )
        out = io.BytesIO()
        Server(
            Connection(io.BytesIO(stream.getvalue()), out), lambda: program or self.program
        ).serve()
        return list(self.messages(out.getvalue()))

    def messages(self, data: bytes) -> list[dict]:
        reader = Connection(io.BytesIO(data), io.BytesIO())
        return list(iter(reader.read, None))

    def opened(self, text: str) -> tuple[str, dict]:
        return "textDocument/didOpen", {
            "textDocument": {"uri": URI, "languageId": "tilugba", "version": 1, "text": text}
        }

    def asked(self, text: str, method: str, line: int, character: int, **more: object) -> object:
        """The result of a request at a position of a text."""
        params = {
            "textDocument": {"uri": URI}, "position": {"line": line, "character": character}, **more
        }
        answers = self.talk(self.opened(text), (f"textDocument/{method}", params, 1))
        return next(it for it in answers if it.get("id") == 1)["result"]

    def faults(self, text: str, *further: tuple[str, dict]) -> list[dict]:
        """The last diagnostics that are shown of a text."""
        shown = [
            it
            for it in self.talk(self.opened(text), *further)
            if it.get("method") == "textDocument/publishDiagnostics"
        ]
        return shown[-1]["params"]["diagnostics"]


SAVED = ("textDocument/didSave", {"textDocument": {"uri": URI}})


class Faults(Session):
    def serve_step_by_step(self, *messages: tuple[str, dict]) -> list[list[dict]]:
        """The diagnostics that are shown after each message."""
        out = io.BytesIO()
        server = Server(Connection(io.BytesIO(), out), lambda: self.program)
        found = []
        for method, params in messages:
            out.seek(0)
            out.truncate()
            server.take({"method": method, "params": params})
            server.show_changed()
            found.append([it["params"]["diagnostics"] for it in self.messages(out.getvalue())])
        return [it[-1] if it else [] for it in found]

    def test_as_one_types(self) -> None:
        def change(start: int, end: int, text: str) -> tuple[str, dict]:
            """A change within line 3, the fourth."""
            there = {"start": {"line": 3, "character": start}, "end": {"line": 3, "character": end}}
            version = {"textDocument": {"uri": URI, "version": 2}}
            return "textDocument/didChange", version | {
                "contentChanges": [{"range": there, "text": text}]
            }

        steps = [change(16, 16, " Acme Co"), change(16, 24, ""), change(22, 25, "ä")]
        shown = self.serve_step_by_step(self.opened(BOOK), *steps)
        self.assertEqual(shown[0], [])
        self.assertEqual(shown[1][0]["range"]["start"], {"line": 3, "character": 17})
        self.assertIn("here may stand: ',', ';'", shown[1][0]["message"])
        self.assertIn("a name has no blank", shown[1][0]["message"])
        self.assertEqual(shown[2:], [[], []])

    def test_columns_are_utf16_units(self) -> None:
        """Behind `é € 𝄞` a column counts 2, 3 and 4 bytes, and 1, 1 and 2 units."""
        text = "portfolio 1;\namounts 2; # é € 𝄞\n# é € 𝄞\n"
        [found] = self.faults(text + "party A B;")
        self.assertEqual(
            found["range"],
            {"start": {"line": 3, "character": 8}, "end": {"line": 3, "character": 9}},
        )
        [found] = self.faults("portfolio 1;\namounts 2;\nparty é€𝄞 A;")
        self.assertEqual(found["range"]["start"], {"line": 2, "character": 6})
        document = Document(URI, "aé€𝄞b\nx".encode())
        places = [
            (0, 0, 0),
            (1, 0, 1),
            (3, 0, 2),
            (6, 0, 3),
            (10, 0, 5),
            (11, 0, 6),
            (12, 1, 0),
            (13, 1, 1),
        ]
        for at, line, character in places:
            self.assertEqual(document.position(at), {"line": line, "character": character})
            self.assertEqual(document.at({"line": line, "character": character}), at)
        self.assertEqual(document.at({"line": 0, "character": 99}), 11)
        self.assertEqual(document.at({"line": 9, "character": 0}), 13)

    def test_changes_give_the_text_that_the_editor_has(self) -> None:
        """Random changes of a text with characters of one to four bytes, beside the same on UTF-16
        units.
        """
        chance = random.Random(2)
        text, document = "aé€𝄞\n\r\nb", Document(URI, "aé€𝄞\n\r\nb".encode())
        for _ in range(300):
            # No place is between a carriage return and its line feed.
            places = [at for at in range(len(text) + 1) if text[max(at - 1, 0) : at + 1] != "\r\n"]
            spots = sorted(chance.choices(places, k=2))
            start, end = (self.position(text, spot) for spot in spots)
            put = chance.choice(["", "x", "é", "𝄞", "\n", "€\n"])
            document = document.changed(2, [{"range": {"start": start, "end": end}, "text": put}])
            text = text[: spots[0]] + put + text[spots[1] :]
            self.assertEqual(document.data.decode(), text)

    def position(self, text: str, at: int) -> dict:
        lines = text[:at].replace("\r\n", "\n").split("\n")
        return {"line": len(lines) - 1, "character": len(lines[-1].encode("utf-16-le")) // 2}

    def test_on_save_the_program_is_asked(self) -> None:
        refused = (
            f"{BOOK}contract d = scale(1.005, pay(EUR, Desk, Bank));\n"
            "contract e = pay(EUR, Desk, Desk);\n"
        )
        self.assertEqual(self.faults(refused), [])
        shown = self.faults(refused, SAVED)
        first = shown[0]
        self.assertEqual(
            (first["severity"], first["code"], first["range"]["start"]["line"]), (1, "scale", 11)
        )
        self.assertIn("1.005 has 3 decimals; amounts have 2", first["message"])
        self.assertIn((2, "itself"), [(it["severity"], it["code"]) for it in shown])
        code = "payoff 1; amounts 2; party A; asset E; code c = none;"
        self.assertEqual(self.faults(code, SAVED), [])
        plan = (
            "schedules 1; amounts 2; party A; asset E; leg c = 1.005 of E from A to A first 0 "
            "every 1 times 1;"
        )
        self.assertEqual([it["code"] for it in self.faults(plan, SAVED)], ["scale"])
        self.assertEqual(
            [it["code"] for it in self.faults(plan.replace("leg", "leg leg"), SAVED)], ["syntax"]
        )

    def test_a_program_that_is_missing(self) -> None:
        answers = self.talk(self.opened(BOOK), SAVED, program=Program(self.folder / "none"))
        self.assertTrue(any(it.get("method") == "window/showMessage" for it in answers))

    def test_closing_takes_faults_away(self) -> None:
        self.assertEqual(
            self.faults("portfolio", ("textDocument/didClose", {"textDocument": {"uri": URI}})), []
        )


class Places(Session):
    def spot(self, word: str, text: str = BOOK, nth: int = 1) -> tuple[int, int]:
        """The line and the units before the nth place of a word."""
        at = -1
        for _ in range(nth):
            at = text.index(word, at + 1)
        lines = text[:at].split("\n")
        return len(lines) - 1, len(lines[-1].encode("utf-16-le")) // 2

    def hover(self, word: str, nth: int = 1) -> str:
        found = self.asked(BOOK, "hover", *self.spot(word, nth=nth))
        return found["contents"]["value"] if found else ""

    def test_hover(self) -> None:
        self.assertIn("2026-02-04 (day 30, a Wednesday)", self.hover("30"))
        pay = self.hover("pay(")
        self.assertIn("node 7, `pay`: 2026-02-04 (day 30, a Wednesday)", pay)
        self.assertIn(
            "c is accepted: it pays nothing before 2026-02-04 (day 30, a Wednesday), at most 1.00",
            pay,
        )
        label = self.hover("FX", 2)
        self.assertIn("`num FX : 4 in 0.5000 .. 2.0000;`", label)
        self.assertIn("node 1, `obs`: 2026-01-05 (day 0, a Monday)", label)
        self.assertIn("what is after stands on 2026-02-04", self.hover("after("))
        self.assertEqual(self.asked(BOOK, "hover", 1, 0), None)

    def test_a_declaration_with_a_comment_in_it(self) -> None:
        text = BOOK.replace("party Desk, Bank;", "party Desk, # é; no end\n Bank;")
        self.assertIn("`party Desk, Bank;`", self.asked(text, "hover", 3, 7)["contents"]["value"])
        long = BOOK.replace("template T = 30;", f"template T = {'9' * 5_000};")
        self.assertIsNone(self.asked(long, "hover", 7, 20))

    def test_definition_and_references(self) -> None:
        found = self.asked(BOOK, "definition", *self.spot("Bank", nth=2))
        self.assertEqual(found["range"]["start"], {"line": 3, "character": 12})
        found = self.asked(BOOK, "definition", *self.spot("x)"))
        self.assertEqual(found["range"]["start"], {"line": 8, "character": 17})
        self.assertIsNone(self.asked(BOOK, "definition", *self.spot("within")))
        context = {"context": {"includeDeclaration": True}}
        self.assertEqual(len(self.asked(BOOK, "references", *self.spot("FX"), **context)), 3)
        self.assertEqual(
            len(
                self.asked(
                    BOOK, "references", *self.spot("FX"), context={"includeDeclaration": False}
                )
            ),
            2,
        )
        same = (
            "portfolio 1; amounts 2; party A; asset A;\ncontract A = let A = 1 in scale(A, pay(A, "
            "A, A));"
        )
        found = [
            self.asked(same, "references", *spot, **context)
            for spot in ((0, 30), (0, 39), (1, 9), (1, 17))
        ]
        self.assertEqual([len(it) for it in found], [3, 2, 1, 2])

    def test_outline(self) -> None:
        found = self.talk(
            self.opened(BOOK), ("textDocument/documentSymbol", {"textDocument": {"uri": URI}}, 1)
        )
        names = [
            (it["name"], it["detail"])
            for it in next(it for it in found if it.get("id") == 1)["result"]
        ]
        wanted = "Desk party Bank party EUR asset FX num F flag T template c contract".split()
        self.assertEqual(names, list(zip(wanted[::2], wanted[1::2])))

    def labels(self, text: str) -> list[str]:
        """What is completed at the end of a text."""
        lines = text.split("\n")
        return [
            it["label"]
            for it in self.asked(
                text, "completion", len(lines) - 1, len(lines[-1].encode("utf-16-le")) // 2
            )
        ]

    def test_completion(self) -> None:
        head = BOOK[: BOOK.index("contract")]
        self.assertEqual(
            self.labels(head + "contract d = "),
            ["zero", "pay", "both", "scale", "after", "let", "if"],
        )
        self.assertEqual(self.labels(head + "contract d = pay("), ["EUR"])
        self.assertEqual(
            self.labels(head + "contract d = pay(EUR, # é € 𝄞\n  Ba"), ["Desk", "Bank"]
        )
        self.assertEqual(
            self.labels(head + "contract d = scale(round("),
            ["half_even", "half_away", "floor", "ceil"],
        )
        self.assertEqual(self.labels(head + "contract d = let y = 1 in scale(y")[-1], "y")
        self.assertEqual(self.labels(head), ["template", "contract"])
        self.assertEqual(self.labels(head + "# a"), [])
        lines = "origin start party asset num flag template contract".split()
        self.assertEqual(self.labels("portfolio 1;\namounts 2;\npa"), lines)
        head = "schedules 1; amounts 2; party A; asset E; num N : 0 in 0 .. 1; flag F;\n"
        plans = head + "guarded g = 1 of E from A to A first 0 every 1 times 2 until "
        self.assertEqual(self.labels(plans), ["F"])

    def test_completion_in_the_middle(self) -> None:
        found = self.asked(BOOK, "completion", 8, 13)
        self.assertEqual(found[0]["label"], "zero")

    def test_formatting(self) -> None:
        params = {"textDocument": {"uri": URI}, "options": {}}
        [edit] = self.talk(self.opened(TEXT), ("textDocument/formatting", params, 1))[0]["result"]
        self.assertEqual(edit["newText"], LAID)
        self.assertEqual(edit["range"]["start"], {"line": 0, "character": 0})
        self.assertEqual(
            self.talk(self.opened(LAID), ("textDocument/formatting", params, 1))[0]["result"], []
        )
        self.assertIsNone(
            self.talk(self.opened("portfolio"), ("textDocument/formatting", params, 1))[0]["result"]
        )


class Protocol(Session):
    def test_requests_that_cannot_be_answered(self) -> None:
        answers = self.talk(
            ("initialize", {"capabilities": {}}, 1),
            ("textDocument/rename", {}, 2),
            ("textDocument/hover", {"textDocument": {"uri": "file:///else"}, "position": {}}, 3),
            ("textDocument/hover", {}, 4),
            (["textDocument/hover"], {}, 5),
            ("shutdown", {}, 6),
            ("exit", {}),
        )
        self.assertTrue(answers[0]["result"]["capabilities"]["hoverProvider"])
        self.assertEqual(
            [it["error"]["code"] for it in answers[1:5]], [-32601, -32602, -32602, -32602]
        )
        self.assertIsNone(answers[5]["result"])

    def test_a_request_that_fails_is_no_end_of_the_others(self) -> None:
        params = {"textDocument": {"uri": URI}, "options": {}}
        wrong = mock.patch.object(formatting, "formatted", side_effect=formatting.Changed("what"))
        with wrong:
            found = self.talk(
                self.opened(TEXT), ("textDocument/formatting", params, 1), ("shutdown", {}, 2)
            )
        answers = [it for it in found if "id" in it]
        self.assertEqual(answers[0]["error"], {"code": -32603, "message": "Changed: what"})
        self.assertIsNone(answers[1]["result"])

    def test_a_process(self) -> None:
        """The command on its streams: an answer, and the status of an orderly end; rubbish ends it
        without a traceback.
        """
        body = json.dumps({"jsonrpc": "2.0", "id": 1, "method": "shutdown"}).encode()
        leave = json.dumps({"jsonrpc": "2.0", "method": "exit"}).encode()
        framed = b"".join(b"Content-Length: %d\r\n\r\n" % len(it) + it for it in (body, leave))
        rubbish = [
            b"", b"rubbish\n\n", b"Content-Length: 3\r\n\r\n{]}", b"Content-Length: 9\r\n\r\n[]"
        ]
        rubbish.append(b"Content-Length: 200000\r\n\r\n" + b"[" * 200_000)
        for data, status in [(framed, 0), *((it, 1) for it in rubbish)]:
            ran = subprocess.run(
                [sys.executable, DESK / "tilugba-desk", "language-server"],
                input=data,
                capture_output=True,
            )
            self.assertEqual((ran.returncode, ran.stderr), (status, b""))

    def test_a_key_in_a_long_text(self) -> None:
        """From a key in a contract of a text of 1 MB to the fault that the editor shows it takes at
        most 0.3 seconds of a quiet processor.
        """
        line = (
            "contract c{} = if (obs(FX, 0) > 1.1) within 3 then pay(EUR, Desk, Bank) else "
            "scale(2.00, pay(EUR, Bank, Desk)); # é\n"
        )
        text = BOOK + "".join(line.format(number) for number in range(9_000))
        self.assertGreater(len(text.encode()), 1_000_000)
        out = io.BytesIO()
        server = Server(Connection(io.BytesIO(), out), lambda: self.program)
        server.take(dict(zip(("method", "params"), self.opened(text))))
        server.show_changed()
        self.assertEqual(self.messages(out.getvalue())[-1]["params"]["diagnostics"], [])
        times = []
        # A letter more, and a letter less.
        for column, letter, faults in ((25, "x", 1), (26, "", 0)) * 3:
            there = {
                "start": {"line": 5_000, "character": 25},
                "end": {"line": 5_000, "character": column},
            }
            change = {
                "textDocument": {"uri": URI, "version": 2},
                "contentChanges": [{"range": there, "text": letter}],
            }
            start = time.process_time()
            server.take({"method": "textDocument/didChange", "params": change})
            server.show_changed()
            times.append(time.process_time() - start)
            found = self.messages(out.getvalue())[-1]["params"]["diagnostics"]
            self.assertEqual([it["range"]["start"]["line"] for it in found], [5_000] * faults)
        self.assertLess(min(times), 0.3 * slowness())


if __name__ == "__main__":
    unittest.main()
