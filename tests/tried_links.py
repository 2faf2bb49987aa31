"""The links "Try it" of a site that tools/site has made: each has a whole run in it, of which the
program answers what the block shows. Some are followed in a browser."""
from __future__ import annotations

import os
import re
import shlex
import subprocess
import sys
import tempfile
from collections.abc import Callable, Iterator
from dataclasses import dataclass
from html import unescape
from pathlib import Path

TOP = Path(__file__).resolve().parents[1]
sys.path[:0] = [str(TOP / "tools"), str(TOP / "tests")]
import shown_runs
from page_tools.chromium import Chromium
from page_tools.serving import Serving

BLOCK = re.compile(
    r'<pre class="console[^"]*"><code>(.*?)</code></pre>(?:\n<p class="try">(.*?)</p>)?', re.S
)
LINK = re.compile(r'<a href="([^"]*)"(?: title="([^"]*), in the browser")?>(.*?)</a>')
# A run with nothing behind it but a word of its status.
PLAIN = re.compile(r"\./tilugba ((?:[^|;&<>$`(){}*\n\\]|\\\n)+)(; echo .*)?\n?")
# What stands in an empty table of the page.
HEADERS = {
    "fixings": "label,day,value",
    "curve": "offset,factor",
    "scenarios": "scenario,label,day,value",
}
PRESS = """const links = [...document.querySelectorAll(".try a")];
links.find((it) => it.getAttribute("href") === arguments[0]).click();"""
ANSWER = """const of = (id) => document.getElementById(id)?.textContent ?? "";
const isReady = document.documentElement.dataset.ready === "true";
return isReady && /(^| )Status /.test(of("status")) ? [of("status"), of("text")] : null;"""

Judge = Callable[[str, object, object], None]


@dataclass(frozen=True)
class Link:
    """A link of a page of the site: where it leads, the words of its run, and the block over it."""

    page: str
    href: str
    name: str
    block: str

    @property
    def case(self) -> dict:
        return shown_runs.case_in(f"#{self.href.partition('#')[2]}")


def blocks_of(folder: Path, page: str) -> Iterator[tuple[str, list[Link]]]:
    """The text of each block of commands, and the links below it."""
    for found in BLOCK.finditer((folder / page).read_text(encoding="utf-8")):
        block = unescape(re.sub(r"<[^>]*>", "", found[1]))
        links = []
        for href, title, shown in LINK.findall(found[2] or ""):
            links.append(Link(page, href, unescape(title or shown), block))
        yield block, links


def shown_in(block: str) -> Iterator[tuple[str, str]]:
    """The commands of a block, and what each prints."""
    command, output, is_within = "", "", False
    for line in block.splitlines():
        if line.startswith("$ "):
            if is_within:
                yield command, output
            command, output, is_within = line[2:], "", True
        elif line.startswith("> ") and not output:
            command += f"\n{line[2:]}"
        else:
            output += f"{line}\n"
    if is_within:
        yield command, output


def answers_shown(link: Link) -> Iterator[tuple[str, bool]]:
    """What the block shows of the link's run, and whether that is the whole answer."""
    for command, output in shown_in(link.block):
        found = PLAIN.fullmatch(command)
        if found and shown_runs.name_of(shown_runs.Run(shlex.split(found[1]), {})) == link.name:
            yield output, not found[2]


def words_of(case: dict) -> tuple[list[str], dict[str, str]]:
    """The words that the form of the page makes of a case, and the files that they name."""
    command = next(it for it in shown_runs.TABLE["command"] if it["name"] == case["command"])
    words, values = [command["name"]], case["values"]
    if command.get("number"):
        return [*words, values["number"]], {}
    texts = {it: case["texts"][it] for it in command.get("files", [])}
    for it in command.get("optional", []):
        text = case["texts"].get(it, "")
        if text.strip() not in ("", HEADERS.get(it)):
            texts[it] = text
    words += texts
    words += [f"{it[1:]}={days}" for it, days in values.items() if it.startswith("=")]
    for it in command.get("options", []):
        value = values[it["name"]]
        words += [f"--{it['name']}", *([value] if it.get("takes") else [])] if value else []
    return words, texts


def answer(program: str, case: dict) -> tuple[int, str]:
    words, texts = words_of(case)
    with tempfile.TemporaryDirectory() as place:
        for name, text in texts.items():
            Path(place, name).write_text(text, encoding="utf-8", newline="")
        how = {"cwd": place, "stdin": subprocess.DEVNULL, "capture_output": True}
        done = subprocess.run([program, *words], check=False, **how)
    return done.returncode, done.stdout.decode("utf-8", "replace")


def statuses_of(name: str) -> set[int]:
    command = next(it for it in shown_runs.TABLE["command"] if it["name"] == name)
    return {0, *command["statuses"]}


def look_at(judge: Judge, link: Link, program: str) -> bool:
    """The link leads to the page, with a run of which the program answers what the block shows; it
    answers whether the block shows that."""
    path = os.path.join(os.path.dirname(link.page), link.href.partition("#")[0])
    is_right = os.path.normpath(path) == "page/index.html"
    judge(f"where {link.name} of {link.page} leads", is_right, link.href)
    status, text = answer(program, link.case)
    shown = list(answers_shown(link))
    if shown:
        judge(f"what {link.name} of {link.page} answers", fits(text, shown), (status, text, shown))
    else:
        is_status = status in statuses_of(link.case["command"])
        judge(f"what {link.name} of {link.page} ends with", is_status, (status, text))
    return bool(shown)


def fits(text: str, shown: list[tuple[str, bool]]) -> bool:
    return any(text == it if is_all else it.startswith(text) for it, is_all in shown)


def check(judge: Judge, folder: Path, pages: list[str], program: str) -> None:
    """All links of the site."""
    whole = others = without = 0
    for page in pages:
        for block, links in blocks_of(folder, page):
            without += not links and any(shown_runs.is_run(it) for it, _ in shown_in(block))
            found = [look_at(judge, link, program) for link in links]
            whole, others = whole + sum(found), others + len(found) - sum(found)
    judge("how many links there are", whole > 80 and others > 50 and without < 20, "too few")
    print(f"{whole} links have the answer over them, {others} a part of it or none", flush=True)
    print(f"{without} blocks of runs have no link", flush=True)


def sample(folder: Path, pages: list[str]) -> Iterator[Link]:
    """A link of each page that has some: the one in the middle."""
    for page in pages:
        links = [link for _, of_block in blocks_of(folder, page) for link in of_block]
        if links:
            yield links[len(links) // 2]


def follow(judge: Judge, folder: Path, pages: list[str], program: str) -> None:
    """Links that are followed in Chromium: the page answers what the program does."""
    with Serving(folder) as serving, Chromium() as browser:
        for link in sample(folder, pages):
            browser.open("about:blank")
            browser.open(f"{serving.url}{link.page}")
            browser.do(PRESS, link.href)
            said, text = browser.wait(lambda: browser.do(ANSWER), f"no answer to {link.name}")
            status, wanted = answer(program, link.case)
            holds = text == wanted and f"Status {status}:" in said
            judge(f"{link.name} of {link.page}, followed", holds, (said, text, wanted))
            shown = list(answers_shown(link))
            if shown:
                judge(f"{link.name} of {link.page}, as shown", fits(text, shown), (text, shown))
