"""What a user does with the page, in Chromium. Its answers are compared with the program's."""
from __future__ import annotations

import contextlib
import json
import subprocess
import tempfile
import time
from collections.abc import Callable, Iterator
from pathlib import Path

from .bench import Bench
from .chromium import Chromium
from .serving import Serving

EDITOR = "const ed = (it) => document.querySelector(`#editor-${it} .CodeMirror`).CodeMirror;"
BY = "const by = (id) => document.getElementById(id);"
HEAD = "portfolio 1;\namounts 2;\nparty A, B;\nasset EUR;\n"
CONTRACT = "contract c = pay(EUR, A, B);\n"
# A text for each kind of fault, with what stands before it: letters that have several bytes, a tab.
FAULTS = {
    "syntax": f"{HEAD}# é € 𝄞\n\tcontract c = pay(EUR, A B);\n",
    "number": f"{HEAD}contract c = after(100001, zero);\n",
    "date": HEAD.replace("party", "origin 2026-02-30;\nparty"),
    "range": f"{HEAD}num FX : 4 in 2.0000 .. 0.5000;\n",
    "twice": f"{HEAD}{CONTRACT}{CONTRACT}",
    "unknown": f"{HEAD}contract c = pay(EUR, A, C);\n",
    "deep": f"{HEAD}contract c = {'after(1, ' * 200}zero{')' * 200};\n",
}
# What may stand behind a text, whatever its names.
MAY_STAND = {
    HEAD.replace("asset EUR;", "asset EUR num"): {";", ","},
    f"{HEAD}contract c = ;\n": {"zero", "pay", "both", "scale", "after", "let", "if"},
    f"{HEAD}contract c = pay(;\n": {"EUR"},
    f"{HEAD}contract c = zero zero;\n": {";"},
}
# Files of an example, what is asked of them, and the role of each in the page.
SPREADSHEET = "label\tday\tvalue\nFX\t5\t1.0000\n"
LIMIT_OF_FILE = 16_777_216
ROWS = 500_000
PHONE, DESK = 360, 1280
KEYS = {"tab": "\ue004", "enter": "\ue007"}
# Milliseconds from a key to the mark of a fault on a quiet machine, in a book of 100 kB; and those
# of a loop there, in a browser on a processor of 2.5 GHz.
MARK_WITHIN, MOST_TRIES = 200, 20
QUIET_LOOP = 12.0
LOOP = """const begun = performance.now(); let sum = 0;
for (let it = 0; it < 2e6; it++) sum = (sum * 31 + it) % 1000003;
return sum ? performance.now() - begun : 0;"""
MARKED_AFTER = """const done = arguments[0], begun = performance.now(), note = by('fault');
note.textContent = '';
new MutationObserver((_, it) => { it.disconnect(); done(performance.now() - begun); })
  .observe(note, { childList: true });
ed('portfolio').replaceRange('x', { line: 1500, ch: 0 });"""


class Walk:
    """One after another, in one window."""

    def __init__(self, bench: Bench, browser: Chromium):
        self.bench, self.browser = bench, browser
        self.judge = bench.judge

    def all(self) -> None:
        with Serving(self.bench.page) as serving:
            self.serving, self.served = serving, [serving.url]
            # What was asked for before the walk is another's.
            self.browser.requests()
            steps = (
                self.first_answer,
                self.recipes,
                self.sample,
                self.fault_marks,
                self.offers,
                self.refusal_mark,
                self.table_mark,
                self.paste,
                self.pictures,
                self.files,
                self.links,
                self.keeping,
                self.links_and_own_text,
                self.old_answer,
                self.two_tabs,
                self.keyboard,
                self.names,
                self.large,
                self.stop,
                self.long_book,
                self.narrow_and_dark,
                self.other_hosts,
                self.without_network,
            )
            for it in steps:
                self.step(it)
        self.step(self.without_memory)
        self.step(self.without_module)
        self.step(self.old_browser)
        self.step(self.from_disk)

    def step(self, of: object) -> None:
        """A step that does not come to its end has failed."""
        try:
            of()
        except (RuntimeError, OSError, KeyError, IndexError, TypeError, ValueError) as fault:
            self.judge(False, f"Chromium, {of.__name__}: {type(fault).__name__}: {fault}")

    # ---- What steps share

    def comes(self, holds: Callable[[], object], said: str) -> None:
        """Waits for something, and counts it."""
        try:
            self.judge(bool(self.browser.wait(holds, said)), said)
        except RuntimeError:
            self.judge(False, f"Chromium: {said}")

    def do(self, text: str, *words: object) -> object:
        return self.browser.do(EDITOR + BY + text, *words)

    def text_of(self, name: str) -> str:
        return str(self.do("return by(arguments[0]).textContent", name))

    @contextlib.contextmanager
    def serve(self, folder: Path) -> Iterator[Serving]:
        """Serves another folder on a port of its own, for a while."""
        with Serving(folder) as serving:
            self.served.append(serving.url)
            yield serving

    def open(self, fragment: str = "", url: str = "") -> None:
        self.browser.open("about:blank")
        self.browser.open((url or self.serving.url) + fragment)
        self.ready()

    def ready(self) -> None:
        is_ready = "return document.documentElement.dataset.ready === 'true'"
        self.browser.wait(lambda: self.browser.do(is_ready), "the page is not ready")

    def put(self, role: str, text: str) -> None:
        """Puts a text into an editor, as if it were typed."""
        self.do(
            "by(`tab-${arguments[0]}`).click();"
            "const it = ed(arguments[0]); it.setValue(arguments[1]);"
            "it.replaceRange(' ', {line: 0, ch: 0}); it.replaceRange('', {line: 0, ch: 0},"
            "{line: 0, ch: 1}); by('fault').textContent = ''",
            *(role, text),
        )

    def choose(self, command: str, **options: object) -> None:
        self.do(
            "const it = by('command'); it.value = arguments[0];"
            "it.dispatchEvent(new Event('change'));",
            command,
        )
        for name, value in options.items():
            self.do(
                "const it = document.querySelector(`#options [name=${arguments[0]}]`);"
                "if (it.type === 'checkbox') it.checked = arguments[1];"
                "else it.value = arguments[1];"
                "it.dispatchEvent(new Event('input', {bubbles: true}));",
                *(name, value),
            )

    def run(self, seconds: float = 180) -> tuple[str, str]:
        """Presses Run, and waits for the answer: what is said of it, and its text."""
        self.do("by('run').click()")
        return self.answer(seconds)

    def answer(self, seconds: float = 180) -> tuple[str, str]:
        over = "return by('stop').disabled && by('status').textContent !== 'Running.'"
        self.browser.wait(lambda: self.do(over), "no answer came", seconds)
        return self.text_of("status"), self.text_of("text")

    def native(self, words: list[str], files: dict[str, str]) -> tuple[int, str]:
        """What the program says."""
        with tempfile.TemporaryDirectory() as place:
            for name, text in files.items():
                path = Path(place, name)
                path.parent.mkdir(parents=True, exist_ok=True)
                path.write_text(text, encoding="utf-8")
            how = {"cwd": place, "stdin": subprocess.DEVNULL, "capture_output": True}
            done = subprocess.run([str(self.bench.program), *words], check=False, **how)
        return done.returncode, done.stdout.decode()

    # ---- The steps

    def first_answer(self) -> None:
        begun = time.monotonic()
        self.open()
        took = time.monotonic() - begun
        said, text = self.answer()
        self.judge(text == "option,2026-01-09,Desk,Client,EUR,3.60\n", f"it begins with {text}")
        self.judge("Status 0" in said, f"it begins with {said}")
        print(f"the page and its first answer took {took:.2f} s in Chromium", flush=True)
        self.browser.picture(self.bench.pictures / "first.png", DESK)

    def recipes(self) -> None:
        """Each recipe by a click: its runs give what the program gives."""
        found = json.loads((self.bench.page / "recipes.json").read_text(encoding="utf-8"))
        choices = self.do("return [...by('recipe').options].map((it) => it.value).slice(1)")
        sections = sum(len(it["sections"]) for it in found["pages"])
        self.judge(len(choices) == sections > 20, f"{len(choices)} recipes are offered")
        commands = set()
        for choice in choices:
            page, section = json.loads(choice)
            runs = found["pages"][page]["runs"]
            self.do(
                "by('recipe').value = arguments[0];by('recipe').dispatchEvent(new Event('change'))",
                choice,
            )
            numbers = found["pages"][page]["sections"][section]
            for at, number in enumerate(numbers):
                self.settle_runs(at)
                said, text = self.answer()
                status, wanted = self.recipe(found, page, number)
                words = " ".join(runs[number]["words"])
                holds = text == wanted and f"Status {status}:" in said
                self.judge(
                    holds, f"{section}: {words}: wanted {status} {wanted}, got {said} {text}"
                )
                commands.add(runs[number]["words"][0])
        self.judge(len(commands) == 11, f"recipes have the commands {sorted(commands)}")

    def settle_runs(self, at: int) -> None:
        """Presses the button of a run, once what came before has ended."""
        is_there = "return document.querySelectorAll('#runs button').length > arguments[0]"
        self.browser.wait(lambda: self.do(is_there, at), "a run has no button")
        self.answer()
        self.do("by('status').textContent = 'Running.'")
        self.do("document.querySelectorAll('#runs button')[arguments[0]].click()", at)

    def recipe(self, found: dict, page: int, number: int) -> tuple[int, str]:
        """What the program says to a run, whose files earlier runs may have made."""
        run = found["pages"][page]["runs"][number]
        files = {name: found["texts"][text] for name, text in run["files"].items()}
        for name, earlier in run["made"].items():
            files[name] = self.recipe(found, page, earlier)[1]
        return self.native(run["words"], files)

    def sample(self) -> None:
        self.choose("sample", number="50")
        said, text = self.run()
        wanted = self.native(["sample", "50"], {})
        self.judge((0, text) == wanted and "Status 0" in said, f"sample 50: {said} {text}")

    def fault_marks(self) -> None:
        """A fault is marked where the program says that it is, with its sentence."""
        faults = json.loads((self.bench.page / "faults.json").read_text(encoding="utf-8"))["text"]
        self.choose("check")
        for kind, text in FAULTS.items():
            self.put("portfolio", text)
            is_told = "return by('fault').textContent.startsWith('Line')"
            self.browser.wait(lambda: self.do(is_told), f"no mark of {kind}")
            status, line = self.native(["check", "book"], {"book": text})
            _, _, told, _, at, _, column = line.split()
            said = self.text_of("fault")
            wrong = faults[kind][0].replace("`", "")[1:]
            holds = (
                told == kind and said.startswith(f"Line {at}, column {column}:") and wrong in said
            )
            self.judge(holds, f"a fault of kind {kind}: {line}, and the page says {said}")
            self.judge(self.marked() == self.place(text, int(at), int(column)), f"{kind}: the mark")
            self.judge(status == 6, f"{kind}: status {status}")
            if kind == "syntax":
                self.browser.picture(self.bench.pictures / "fault.png", DESK)

    def marked(self) -> list[int]:
        """The place of the first mark in the editor: line and character, from 0."""
        found = self.do(
            "const isFault = (it) => it.className === 'mark-fault';"
            "const [it] = ed('portfolio').getAllMarks().filter(isFault);"
            "const {from} = it.find(); return [from.line, from.ch];"
        )
        return list(found)

    @staticmethod
    def place(text: str, line: int, column: int) -> list[int]:
        """Columns count bytes, and the editor counts in units of UTF-16."""
        before = text.split("\n")[line - 1].encode()[: column - 1].decode()
        return [line - 1, len(before.encode("utf-16-le")) // 2]

    def offers(self) -> None:
        """What may stand at a fault is what the program takes there, and can be put there."""
        for text, wanted in MAY_STAND.items():
            self.put("portfolio", text)
            shown = (
                "return [...document.querySelectorAll('#offers button')]"
                ".map((it) => it.textContent)"
            )
            self.browser.wait(lambda: self.do(shown), f"nothing is offered in {text}")
            found = set(self.do(shown))
            self.judge(found == wanted, f"in {text} there is offered {sorted(found)}")
            for it in found:
                status, line = self.tried(text, it)
                self.judge(
                    status != 6 or line, f"{it} is offered in {text}, and may not stand there"
                )
        self.put("portfolio", HEAD.replace("asset EUR;", "asset EUR") + CONTRACT)
        button = "return document.querySelector('#offers button')?.textContent"
        self.browser.wait(lambda: self.do(button) == ";", "no semicolon is offered")
        self.do("document.querySelector('#offers button').click()")
        no_fault = "return by('fault').textContent === ''"
        self.browser.wait(lambda: self.do(no_fault), "what was offered mends nothing")

    def tried(self, text: str, token: str) -> tuple[int, bool]:
        """Whether a text with a token at the place of its first fault has it behind that token."""
        _, line = self.native(["check", "book"], {"book": text})
        row, column = (int(line.split()[at]) for at in (4, 6))
        lines = text.split("\n")
        front = "\n".join([*lines[: row - 1], lines[row - 1][: column - 1]])
        status, said = self.native(["check", "book"], {"book": f"{front} {token}"})
        if status != 6:
            return status, True
        at = [int(said.split()[it]) for it in (4, 6)]
        return status, at >= [row, column + 1 + len(token)]

    def refusal_mark(self) -> None:
        self.put(
            "portfolio",
            f"{HEAD}contract good = zero;\ncontract bad = scale(true, pay(EUR, A, B));\n",
        )
        told = "return by('fault').textContent.includes('bad breaks the rule sort')"
        self.browser.wait(lambda: self.do(told), "a refusal is not told")
        marks = self.do("return ed('portfolio').getAllMarks().map((it) => it.className)")
        self.judge("mark-refusal" in marks, f"a refused contract has the marks {marks}")

    def table_mark(self) -> None:
        """A bad record is marked at its line, though empty lines and quoted fields come before."""
        book = (
            f"{HEAD}num FX : 2 in 0.50 .. 2.00;\ncontract c = scale(obs(FX, 5), pay(EUR, A, B));\n"
        )
        self.put("portfolio", book.replace("obs(FX, 5)", "obs(FX, 0)"))
        table = 'label,day,value\n\nFX,0,"1.00"\nFX,1,9.00\n'
        self.put("fixings", table)
        self.choose("flows")
        said, _ = self.run()
        self.judge("outside the bounds" in said, f"a bad record is said to be {said}")
        below = self.text_of("table-fault")
        holds = below.startswith("Line 4: ") and "outside the bounds" in below
        self.judge(holds, f"below the table is said {below}")
        found = self.do("return ed('fixings').getAllMarks().map((it) => it.find().from.line)")
        self.judge(found == [3], f"a bad record is marked at the lines {found}")

    def paste(self) -> None:
        """What is pasted from a spreadsheet becomes a table."""
        self.put("fixings", "")
        self.do(
            "const data = new DataTransfer(); data.setData('text/plain', arguments[0]);"
            "by('tab-fixings').click(); const it = ed('fixings'); it.focus();"
            "it.getInputField().dispatchEvent(new ClipboardEvent('paste',"
            "{clipboardData: data, bubbles: true, cancelable: true}));",
            SPREADSHEET,
        )
        wanted = SPREADSHEET.replace("\t", ",").strip()
        text = "return ed('fixings').getValue()"
        self.comes(lambda: str(self.do(text)).strip() == wanted, "a spreadsheet is not pasted")

    def pictures(self) -> None:
        """The numbers of a picture are those of the answer, added up."""
        found = json.loads((self.bench.page / "recipes.json").read_text(encoding="utf-8"))
        page = next(
            at for at, it in enumerate(found["pages"]) if "A year, by month" in it["sections"]
        )
        number = found["pages"][page]["sections"]["A year, by month"][0]
        _, lines = self.recipe(found, page, number)
        self.do(
            "by('recipe').value = arguments[0];by('recipe').dispatchEvent(new Event('change'))",
            json.dumps([page, "A year, by month"], separators=(",", ":")),
        )
        self.settle_runs(0)
        self.answer()
        self.do("by('as-picture').click()")
        drawn = "return by('canvas').getAttribute('role') === 'img' && by('canvas').width > 100"
        self.browser.wait(lambda: self.do(drawn), "no picture is drawn")
        rows = self.do(
            "return [...document.querySelectorAll('#numbers tr')].map((it) =>"
            "[...it.cells].map((one) => one.textContent))"
        )
        self.judge(rows[1:] == by_month(lines, rows[0][1:]), f"the picture has the numbers {rows}")
        self.browser.picture(self.bench.pictures / "year.png", DESK)
        self.do("by('life').click()")
        done = "return by('status').textContent.startsWith('The most that is left')"
        self.browser.wait(lambda: self.do(done), "no picture of a life")
        self.browser.picture(self.bench.pictures / "life.png", DESK)

    def files(self) -> None:
        """A dropped file is taken by what it is; what is saved has the bytes of the editor."""
        self.do(
            "const data = new DataTransfer();"
            "data.items.add(new File([arguments[0]], 'book.txt'));"
            "document.querySelector('.tables').dispatchEvent("
            "new DragEvent('drop', {dataTransfer: data, bubbles: true, cancelable: true}));",
            HEAD + CONTRACT,
        )
        taken = "return ed('portfolio').getValue() === arguments[0]"
        self.browser.wait(lambda: self.do(taken, HEAD + CONTRACT), "a dropped file is not taken")
        room = self.bench.room / "saved"
        room.mkdir(exist_ok=True)
        self.browser.cdp("Browser.setDownloadBehavior", behavior="allow", downloadPath=str(room))
        self.do("by('tab-portfolio').click(); document.querySelector('#book-tools button').click()")
        file = room / "portfolio.txt"
        self.browser.wait(lambda: file.is_file() and file.stat().st_size, "nothing is saved")
        self.judge(file.read_text(encoding="utf-8") == HEAD + CONTRACT, "another text is saved")

    def links(self) -> None:
        """A link has the whole case; one that was cut is told, and what was typed stays."""
        self.do("by('forget').click()")
        self.put("portfolio", HEAD + CONTRACT)
        self.choose("flows", until="7")
        self.do("by('link').click()")
        hash_of = "return location.hash"
        fragment = str(self.browser.wait(lambda: self.do(hash_of), "there is no link"))
        self.do("localStorage.clear()")
        self.open(fragment)
        said, text = self.answer()
        self.judge(text == "c,0,A,B,EUR,1.00\n", f"a link gives {said} {text}")
        self.judge(self.do("return by('option-until').value") == "7", "a link has no options")
        mine = HEAD + CONTRACT.replace("contract c", "contract mine")
        self.put("portfolio", mine)
        kept = "return (localStorage.getItem('tilugba.case') ?? '').includes('mine')"
        self.browser.wait(lambda: self.do(kept), "nothing is kept")
        for cut in (fragment[: len(fragment) // 2], fragment[:-4], f"{fragment[:-2]}!!", "#case="):
            self.open(cut)
            said = self.text_of("message")
            self.judge("cut or changed" in said, f"a link that was cut: {said}")
            text = self.do("return ed('portfolio').getValue()")
            self.judge(text == mine, f"behind a link that was cut there is {text}")

    def keeping(self) -> None:
        """What is typed is there again, until it is forgotten."""
        self.open()
        self.put("portfolio", f"{HEAD}contract kept = zero;\n")
        kept = "return (localStorage.getItem('tilugba.case') ?? '').includes('kept')"
        self.browser.wait(lambda: self.do(kept), "nothing is kept")
        self.open()
        text = self.do("return ed('portfolio').getValue()")
        self.judge("contract kept" in str(text), f"after loading again there is {text}")
        self.do("by('forget').click()")
        left = self.do("return JSON.stringify(localStorage) + ed('portfolio').getValue()")
        self.judge("kept" not in str(left), f"after forgetting there is {left}")

    def links_and_own_text(self) -> None:
        """What was typed stays when links are followed, one after another, and is brought back."""
        self.open()
        self.do("by('forget').click()")
        fragments = []
        for name in ("first", "second"):
            self.put("portfolio", HEAD + CONTRACT.replace("contract c", f"contract {name}"))
            self.choose("flows")
            self.do("by('link').click()")
            holds = "return location.hash !== '' && location.hash !== arguments[0]"
            self.browser.wait(lambda: self.do(holds, fragments[-1] if fragments else ""), "no link")
            fragments.append(str(self.do("return location.hash")))
        self.open()
        self.put("portfolio", f"{HEAD}contract own = zero;\n")
        self.put("fixings", "label,day,value\nFX,5,1.00\n")
        kept = "return (localStorage.getItem('tilugba.case') ?? '').includes('own')"
        self.browser.wait(lambda: self.do(kept), "nothing is kept")
        for name, fragment in zip(("first", "second"), fragments):
            self.open(fragment)
            _, text = self.answer()
            self.judge(text == f"{name},0,A,B,EUR,1.00\n", f"the link of {name} gives {text}")
            time.sleep(1)
        self.do("location.hash = arguments[0]", fragments[0])
        first = "return by('text').textContent.startsWith('first')"
        self.comes(lambda: self.do(first), "a link that is followed within the page")
        self.do("document.querySelector('#message button').click()")
        self.has_own("two links")
        self.do("by('recipe').selectedIndex = 1; by('recipe').dispatchEvent(new Event('change'))")
        self.settle_runs(0)
        self.answer()
        back = "return document.querySelector('#message button')"
        self.browser.wait(lambda: self.do(back), "nothing is brought back after an example")
        self.do("document.querySelector('#message button').click()")
        self.has_own("two examples")

    def has_own(self, what: str) -> None:
        text = self.do("return ed('portfolio').getValue() + ed('fixings').getValue()")
        holds = "contract own" in str(text) and "FX,5,1.00" in str(text)
        self.judge(holds, f"after {what} and Bring back there is {text}")

    def old_answer(self) -> None:
        """An answer whose question has changed since is said to be an old one."""
        self.do("by('forget').click()")
        self.put("portfolio", HEAD + CONTRACT)
        self.choose("flows")
        self.run()
        is_hidden = "return by('old').hidden"
        self.judge(self.do(is_hidden), "an answer is said to be old at once")
        self.put("portfolio", HEAD + CONTRACT.replace("A, B", "B, A"))
        self.comes(lambda: not self.do(is_hidden), "an old answer is not said to be old")
        self.run()
        self.judge(self.do(is_hidden), "a new answer is said to be old")

    def two_tabs(self) -> None:
        """The other tab is told."""
        self.open()
        first = self.browser.ask("GET", f"{self.browser.at}/window")
        made = self.browser.ask("POST", f"{self.browser.at}/window/new", {"type": "tab"})
        self.window(made["handle"])
        self.open()
        self.put("portfolio", f"{HEAD}contract other = zero;\n")
        kept = "return (localStorage.getItem('tilugba.case') ?? '').includes('other')"
        self.browser.wait(lambda: self.do(kept), "nothing is kept")
        self.browser.ask("DELETE", f"{self.browser.at}/window")
        self.window(first)
        told = "return by('message').textContent.includes('another tab')"
        self.comes(lambda: self.do(told), "the first tab is told nothing")

    def window(self, handle: object) -> None:
        self.browser.ask("POST", f"{self.browser.at}/window", {"handle": handle})

    def keyboard(self) -> None:
        """By the keyboard alone: from the beginning to Run, and out of an editor again."""
        self.do("by('forget').click(); localStorage.clear()")
        self.open()
        self.answer()
        self.do("by('status').textContent = 'Running.'; by('recipe').focus()")
        place = "return document.activeElement.id"
        for _ in range(40):
            self.browser.press(KEYS["tab"])
            if self.do(place) == "run":
                break
        self.judge(self.do(place) == "run", "the key Tab does not lead to Run")
        self.browser.press(KEYS["enter"])
        _, text = self.answer()
        self.judge(text.endswith("EUR,3.60\n"), f"the key Enter on Run gives {text}")
        is_inside = "return Boolean(document.activeElement.closest('.CodeMirror'))"
        passed = []
        self.do("by('run').focus()")
        for _ in range(40):
            self.browser.press(KEYS["tab"])
            passed.append(bool(self.do(is_inside)))
            if self.do(place) == "save-answer":
                break
        self.judge(any(passed), "the key Tab does not lead into an editor")
        self.judge(self.do(place) == "save-answer", "the key Tab does not lead to the answer")

    def names(self) -> None:
        """Each control has a name for a screen reader."""
        tree = self.browser.cdp("Accessibility.getFullAXTree")
        roles = {"button", "combobox", "textbox", "checkbox", "spinbutton", "link"}
        found, without = 0, []
        for it in tree["nodes"]:
            role = it.get("role", {}).get("value")
            if it.get("ignored") or role not in roles:
                continue
            found += 1
            if not str(it.get("name", {}).get("value", "")).strip():
                without.append(role)
        self.judge(found > 20 and not without, f"of {found} controls these have no name: {without}")

    def large(self) -> None:
        """A text of the greatest length and one byte more, and a table with half a million rows."""
        for size, status in ((LIMIT_OF_FILE, 0), (LIMIT_OF_FILE + 1, 5)):
            self.drop_filled(HEAD + CONTRACT, size)
            self.choose("check")
            said, _ = self.run()
            self.judge(f"Status {status}:" in said, f"a text of {size} bytes: {said}")
        self.do("by('forget').click()")
        label = (
            f"{HEAD}num FX : 2 in 0.50 .. 2.00;\ncontract c = scale(obs(FX, 5), pay(EUR, A, B));\n"
        )
        self.put("portfolio", label.replace("obs(FX, 5)", "obs(FX, 0)"))
        self.do(
            "let text = 'label,day,value\\n';"
            "for (let at = 0; at < arguments[0]; at++) text += `FX,${at},1.25\\n`;"
            "const data = new DataTransfer(); data.items.add(new File([text], 'fixings.csv'));"
            "document.querySelector('.tables').dispatchEvent("
            "new DragEvent('drop', {dataTransfer: data, bubbles: true, cancelable: true}));",
            ROWS,
        )
        held = "return !document.querySelector('#editor-fixings .held').hidden"
        self.browser.wait(lambda: self.do(held), "a large table is not held")
        self.choose("flows")
        said, text = self.run()
        self.judge(text == "c,0,A,B,EUR,1.25\n", f"half a million rows: {said} {text}")

    def drop_filled(self, text: str, size: int) -> None:
        self.do(
            "const [text, size] = arguments;"
            "const file = new File([text, '#'.repeat(size - text.length)], 'book.txt');"
            "const data = new DataTransfer(); data.items.add(file);"
            "document.querySelector('.book').dispatchEvent("
            "new DragEvent('drop', {dataTransfer: data, bubbles: true, cancelable: true}));",
            *(text, size),
        )
        note = "return document.querySelector('#editor-portfolio .held').textContent"
        shown = f"{size:,}"
        self.browser.wait(lambda: shown in str(self.do(note)), "a large text is not held")

    def stop(self) -> None:
        """A long run can be stopped, and the next one is answered."""
        self.do("by('forget').click()")
        many = "".join(f"contract c{it} = pay(EUR, A, B);\n" for it in range(300_000))
        self.drop_filled(HEAD + many, len(HEAD + many) + 1)
        self.choose("settle")
        self.do("by('status').textContent = ''; by('run').click(); by('stop').click()")
        said, _ = self.answer()
        self.judge(said.startswith("Stopped."), f"a run that is stopped: {said}")
        self.do("by('forget').click()")
        self.put("portfolio", HEAD + CONTRACT)
        self.choose("flows")
        _, text = self.run()
        self.judge(text == "c,0,A,B,EUR,1.00\n", f"after Stop a run gives {text}")

    def slowness(self) -> float:
        """How many times as long as on a quiet machine the browser takes for a loop here and now,
        and at least 1: processors that others use too are slower, and its limits are stretched."""
        return max(min(float(str(self.do(LOOP))) for _ in range(5)) / QUIET_LOOP, 1.0)

    def long_book(self) -> None:
        """A fault in a book of 100 kB is marked soon after a pause; the least of some tries."""
        line = "contract c{} = after(5, scale(100.00, pay(EUR, A, B)));\n"
        text = HEAD + "".join(line.format(it) for it in range(2000))
        self.put("portfolio", text)
        tries: list[float] = []
        for _ in range(MOST_TRIES):
            self.do("ed('portfolio').setValue(arguments[0])", text)
            time.sleep(1)
            took = float(str(self.browser.later(EDITOR + BY + MARKED_AFTER)))
            tries.append(took / self.slowness())
            if min(tries) < MARK_WITHIN:
                break
        said = f"a fault in a book of {len(text)} bytes is marked after {took:.0f} ms"
        print(f"{said}, {min(tries):.0f} on a quiet machine", flush=True)
        self.judge(min(tries) < MARK_WITHIN, f"{said}, of which {MARK_WITHIN} were wanted: {tries}")
        self.judge(self.marked() == [1500, 0], f"the mark in a long book is at {self.marked()}")

    def narrow_and_dark(self) -> None:
        """On a phone nothing is wider than the screen; and in the dark."""
        self.do("by('forget').click()")
        self.do("localStorage.clear()")
        self.open()
        self.answer()
        size = {"width": PHONE, "height": 800, "deviceScaleFactor": 2, "mobile": True}
        self.browser.cdp("Emulation.setDeviceMetricsOverride", **size)
        time.sleep(0.3)
        wide = self.do("return document.documentElement.scrollWidth")
        self.judge(wide <= PHONE, f"on a phone of {PHONE} the page is {wide} wide")
        small = self.do(
            "return [...document.querySelectorAll('button, select, .open')].filter((it) =>"
            "it.offsetParent && it.getBoundingClientRect().height < 30).map((it) => it.id)"
        )
        self.judge(not small, f"too small for a finger: {small}")
        self.browser.cdp("Emulation.clearDeviceMetricsOverride")
        self.browser.picture(self.bench.pictures / "phone.png", PHONE)
        dark = [{"name": "prefers-color-scheme", "value": "dark"}]
        self.browser.cdp("Emulation.setEmulatedMedia", features=dark)
        self.browser.picture(self.bench.pictures / "dark.png", DESK)
        back = self.do("return getComputedStyle(document.body).backgroundColor")
        self.judge(back == "rgb(21, 25, 28)", f"in the dark the page is {back}")
        self.browser.cdp("Emulation.setEmulatedMedia", features=[])

    def other_hosts(self) -> None:
        """No request went to another host, and the page's policy refuses one."""
        own = (*self.served, "data:", "blob:", "about:", "chrome:", "chrome-extension:")
        strange = [it for it in self.browser.requests() if not it.startswith(own)]
        self.judge(not strange, f"the page asked for {strange[:5]}")
        said = self.browser.later(
            "const done = arguments[0];"
            "const told = (it) => done(it.violatedDirective);"
            "document.addEventListener('securitypolicyviolation', told);"
            "fetch('http://localhost:1/').then(() => done('fetched'), () => 0);"
        )
        self.judge(said == "connect-src", f"a request of another host: {said}")
        faults = [it["message"] for it in self.browser.log("browser") if it["level"] == "SEVERE"]
        faults = [it for it in faults if "localhost:1/" not in it]
        self.judge(not faults, f"the browser tells of faults: {faults[:3]}")

    def without_network(self) -> None:
        """A page that was loaded goes on without the network, and says what it cannot fetch."""
        self.do("by('forget').click(); localStorage.clear()")
        self.open()
        self.answer()
        off = {"offline": True, "latency": 0, "downloadThroughput": 0, "uploadThroughput": 0}
        self.browser.cdp("Network.enable")
        self.browser.cdp("Network.emulateNetworkConditions", **off)
        self.choose("check")
        said, text = self.run()
        self.judge("option accepted" in text, f"without the network: {said} {text}")
        self.choose("flows")
        self.run()
        self.do("by('as-picture').click()")
        told = "return by('message').textContent.includes('network') || by('canvas').role === 'img'"
        self.comes(lambda: self.do(told), "a picture without the network")
        on = {**off, "offline": False, "downloadThroughput": -1, "uploadThroughput": -1}
        self.browser.cdp("Network.emulateNetworkConditions", **on)

    # ---- Pages that lack something

    def without_memory(self) -> None:
        """A memory of 64 MiB: a run that needs more is told so, and the next one is answered."""
        limited = self.bench.limited()
        with self.serve(self.copy("limited", limited)) as serving:
            self.open(url=serving.url)
            many = "".join(f"contract c{it} = pay(EUR, A, B);\n" for it in range(400_000))
            self.drop_filled(HEAD + many, len(HEAD + many) + 1)
            self.choose("check")
            said, _ = self.run()
            self.judge("Out of memory" in said and "Status 9" in said, f"without memory: {said}")
            self.do("by('forget').click()")
            self.put("portfolio", HEAD + CONTRACT)
            self.choose("flows")
            _, text = self.run()
            self.judge(text == "c,0,A,B,EUR,1.00\n", f"after a run without memory: {text}")

    def copy(self, name: str, module: Path | None) -> Path:
        """The page's folder with another module, or with none."""
        folder = self.bench.room / name
        folder.mkdir()
        for it in self.bench.page.iterdir():
            (folder / it.name).symlink_to(it)
        (folder / "tilugba.wasm").unlink()
        if module:
            (folder / "tilugba.wasm").symlink_to(module)
        return folder

    def without_module(self) -> None:
        with self.serve(self.copy("empty", None)) as serving:
            self.browser.open(serving.url)
            told = "return by('message').textContent.includes('could not be loaded')"
            self.comes(lambda: self.do(told), "a page without its module says nothing")

    def from_disk(self) -> None:
        """A page that is opened from a disk does not start, and says why."""
        self.browser.open((self.bench.page / "index.html").as_uri())
        time.sleep(0.5)
        said = self.text_of("message")
        self.judge("opened from a disk" in " ".join(said.split()), f"from a disk: {said}")

    def old_browser(self) -> None:
        source = "delete globalThis.CompressionStream"
        made = self.browser.cdp("Page.addScriptToEvaluateOnNewDocument", source=source)
        with self.serve(self.bench.page) as serving:
            self.browser.open(serving.url)
            told = "return by('message').textContent.includes('lacks CompressionStream')"
            self.comes(lambda: self.do(told), "an old browser is told nothing")
        number = made["identifier"]
        self.browser.cdp("Page.removeScriptToEvaluateOnNewDocument", identifier=number)


def by_month(lines: str, parties: list[str]) -> list[list[str]]:
    """What each party gets less what it pays, by month, as texts with two decimals."""
    sums: dict[str, dict[str, int]] = {}
    for line in lines.splitlines():
        _, day, payer, receiver, _, amount = line.split(",")
        cents = int(amount.replace(".", ""))
        month = sums.setdefault(day[:7], {})
        month[payer] = month.get(payer, 0) - cents
        month[receiver] = month.get(receiver, 0) + cents
    found = []
    for month in sorted(sums):
        cents = [sums[month].get(it, 0) for it in parties]
        texts = [f"{'-' * (it < 0)}{abs(it) // 100}.{abs(it) % 100:02d}" for it in cents]
        found.append([month, *texts])
    return found
