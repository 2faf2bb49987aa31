"""Editors: Neovim with the language server, Vim's `:make`, Emacs' compile mode, VS Code's problem
matcher and snippets.

An editor that is not installed is passed over, and a line says so.
"""

from __future__ import annotations

import json
import os
import re
import shutil
import subprocess
import sys
import unittest

from tests.support import DESK, TOP, Room, the_program

BOOK = """portfolio 1; amounts 2; origin 2026-01-05;
party Me, Acme; # é € 𝄞
asset EUR;
contract c = after(5, # é € 𝄞
  scale(12,500.00, pay(EUR, Acme, Me)));"""
LAID = """portfolio 1;
amounts 2;
origin 2026-01-05;
party Me, Acme; # é € 𝄞
asset EUR;
contract c = after(5,  # é € 𝄞
    scale(12500.00, pay(EUR, Acme, Me)));
"""
VSCODE = TOP / "editors" / "vscode"
# The command of the desk by its name, and a locale of UTF-8.
SHELL = {"PATH": f"{DESK}:{os.environ['PATH']}", "LC_ALL": "C.UTF-8"}


class Editors(Room):
    def environment(self) -> dict[str, str]:
        return os.environ | SHELL | {"TILUGBA": str(the_program().path), "HOME": str(self.folder)}

    def run_editor(self, *words: str, **more: str) -> str:
        ran = subprocess.run(
            words,
            cwd=self.folder,
            capture_output=True,
            text=True,
            env=self.environment() | more,
            timeout=120,
        )
        return ran.stdout + ran.stderr

    @unittest.skipUnless(shutil.which("nvim"), "Neovim, which is not installed")
    def test_neovim(self) -> None:
        path = self.file("book.txt", BOOK)
        lua = DESK / "tests" / "neovim.lua"
        editor = {"EDITOR_FOLDER": str(TOP / "editors" / "vim"), "DESK": str(DESK / "tilugba-desk")}
        said = self.run_editor(
            "nvim", "--headless", "-u", "NONE", "-i", "NONE", "-n", "-c", f"luafile {lua}", **editor
        )
        lines = [
            line
            for line in said.replace("\r", "").splitlines()
            if line and not line.startswith('"')
        ]
        self.assertEqual(lines[0], "filetype tilugba", said)
        self.assertTrue(lines[1].startswith("fault 5 12 syntax here stands '500.00'"), said)
        self.assertIn("there are no marks between thousands: 12500.00", lines[1])
        self.assertEqual(lines[2:5], ["faults 1", "faults 0", "declared at 2 10"], said)
        self.assertEqual(path.read_text(), LAID)
        self.assertTrue(
            lines[5].startswith("fault 7 21 weekend c pays on 2026-01-10, a Saturday"), said
        )

    @unittest.skipUnless(shutil.which("vim"), "Vim, which is not installed")
    def test_vim(self) -> None:
        self.file("book.txt", BOOK)
        script = self.file(
            "try.vim",
            "edit book.txt\nsilent make!\ncall writefile([json_encode(getqflist())], "
            "'found')\nqa!\n",
        )
        folder = TOP / "editors" / "vim"
        plain = ["vim", "-Nu", "NONE", "-i", "NONE", "-es"]
        self.run_editor(
            *plain, "--cmd", f"set rtp^={folder}", "-c", "filetype plugin on", "-S", str(script)
        )
        found = [it for it in json.loads((self.folder / "found").read_text()) if it["valid"]]
        self.assertEqual([(it["lnum"], it["col"]) for it in found], [(5, 12)], found)
        self.assertTrue(found[0]["text"].startswith("syntax"))

    @unittest.skipUnless(shutil.which("emacs"), "Emacs, which is not installed")
    def test_emacs(self) -> None:
        self.file("book.txt", BOOK)
        script = """(progn (add-to-list 'load-path "%s") (require 'tilugba-mode) (find-file "book.txt") (princ major-mode)
          (with-current-buffer (compilation-start compile-command) (while (get-buffer-process (current-buffer)) (sit-for 0.1))
            (goto-char (point-min)) (compilation-next-error 1)
            (let ((loc (compilation--message->loc (get-text-property (point) 'compilation-message))))
              (princ (format " %%s %%s" (compilation--loc->line loc) (compilation--loc->col loc))))))"""
        said = self.run_editor(
            "emacs", "-Q", "--batch", "--eval", script % (TOP / "editors" / "emacs")
        )
        self.assertIn("tilugba-mode 5 1", said)


# Reads what a task prints, and says which lines the pattern of a problem matcher takes, as the
# regular expressions of VS Code do.
MATCH = """
const pattern = JSON.parse(process.argv[1]), lines = require('fs').readFileSync(0, 'utf8').split(/\\r?\\n/);
const told = lines.map(line => new RegExp(pattern.regexp).exec(line)).filter(found => found);
console.log(JSON.stringify(told.map(it => [it[pattern.file], +it[pattern.line], +it[pattern.column], it[pattern.message]])));
"""


class Matched(Room):
    """The lines of the tasks of editors/vscode/README.md, under the pattern of the extension, by
    the engine that VS Code runs on.
    """

    @unittest.skipUnless(shutil.which("node"), "the tasks of VS Code, since node is not installed")
    def test_the_tasks_of_vscode(self) -> None:
        pattern = json.loads((VSCODE / "package.json").read_text())["contributes"][
            "problemMatchers"
        ][0]["pattern"]
        tasks = json.loads(
            re.search(
                r'```json\n(\{\n  "version".*?)```', (VSCODE / "README.md").read_text(), re.S
            )[1]
        )["tasks"]
        refused = BOOK.replace("12,500.00", "12500.005")
        book = BOOK.replace("12,500.00", "12500.00") + "\ncontract nothing = zero;"
        wanted = {
            "explain": [
                (BOOK, [(5, 12, "syntax")]), (refused, [(5, 3, "c is refused by the rule scale")])
            ],
            "lint": [
                (
                    book,
                    [
                        (5, 19, "weekend: c pays on 2026-01-10, a Saturday"),
                        (6, 10, "zero: nothing is zero, so nothing is left of it"),
                    ],
                )
            ],
        }
        for task in tasks:
            self.assertEqual((task["command"], task["type"]), ("tilugba-desk", "process"))
            for number, (text, places) in enumerate(wanted[task["args"][0]]):
                path = self.file(f"a book, {number}.txt", text)
                words = [str(path) if it == "${file}" else it for it in task["args"]]
                ran = subprocess.run(
                    [sys.executable, DESK / "tilugba-desk", *words],
                    capture_output=True,
                    text=True,
                    env=os.environ,
                )
                node = ["node", "-e", MATCH, json.dumps(pattern)]
                found = json.loads(
                    subprocess.run(
                        node,
                        input=ran.stdout + ran.stderr,
                        capture_output=True,
                        text=True,
                        check=True,
                    ).stdout
                )
                self.assertEqual(found, [[str(path), *it] for it in places], ran)


class Sources(unittest.TestCase):
    def test_the_words_of_emacs_are_those_of_the_language(self) -> None:
        from tilugba.texts.tokens import RESERVED

        text = (TOP / "editors" / "emacs" / "tilugba-mode.el").read_text()
        words = re.search(r"defconst tilugba-words\s+'\(([^)]*)\)", text)[1]
        self.assertEqual(set(re.findall('"([^"]*)"', words)), RESERVED)

    def test_the_problem_matcher_of_vscode(self) -> None:
        pattern = json.loads((VSCODE / "package.json").read_text())["contributes"][
            "problemMatchers"
        ][0]["pattern"]
        found = re.match(pattern["regexp"], "/a folder/book.txt:5:12: syntax")
        self.assertEqual(
            [found[pattern[it]] for it in ("file", "line", "column", "message")],
            ["/a folder/book.txt", "5", "12", "syntax"],
        )
        for line in (
            "    5 |   scale(12:5:6: x",
            "      = here stands '1:2:3: '",
            "book.txt: missing fixing of FX on 2026-01-05",
        ):
            self.assertIsNone(re.match(pattern["regexp"], line))

    def test_snippets_are_accepted(self) -> None:
        """Each snippet with its defaults, in a book or in a schedule file, is accepted by the
        program.
        """
        head = (
            "amounts 2; origin 2026-01-05; party Desk, Client; asset EUR; num USDEUR : 4 in 0.2000 "
            ".. 5.0000; flag Default_Client;\n"
        )
        run = the_program().run
        snippets = json.loads((VSCODE / "snippets" / "tilugba.json").read_text())
        self.assertGreater(len(snippets), 10)
        for name, snippet in snippets.items():
            text = re.sub(r"\$\{[0-9]+:([^}]*)\}", r"\1", "\n".join(snippet["body"])).replace(
                "$0", ""
            )
            first = {"portfolio": "", "swap": "schedules 1; ", "guarded": "schedules 1; "}.get(
                text.split()[0], "portfolio 1; "
            )
            with self.subTest(snippet=name):
                written = first + head + text if first else text
                answer = run(
                    "expand" if first.startswith("schedules") else "check", written.encode()
                )
                self.assertEqual(answer.status, 0, answer.text)


if __name__ == "__main__":
    unittest.main()
