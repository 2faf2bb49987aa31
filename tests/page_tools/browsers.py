"""The page in browsers: the recorded calls once more, and what a user does."""
from __future__ import annotations

import shutil
from pathlib import Path

from .bench import TOOLS, Bench
from .chromium import Chromium
from .firefox import Firefox
from .serving import Serving
from .walk import Walk

REPLAY = """const [names, done] = arguments;
const worker = new Worker("replay_worker.mjs", { type: "module" });
worker.onmessage = ({ data }) => done(data);
worker.onerror = (it) => done({ fault: it.message || "the worker does not start" });
worker.postMessage(names);"""
FIRST_ANSWER = """const done = arguments[0];
const timer = setInterval(() => {
  if (document.documentElement.dataset.ready !== "true") return;
  clearInterval(timer);
  const [status, text] = ["status", "text"].map((it) => document.getElementById(it).textContent);
  done([status, text]);
}, 30);"""


def folder_of_calls(bench: Bench) -> Path:
    """A copy of the page's folder with the calls and what makes them again."""
    folder = bench.room / "calls"
    if not folder.exists():
        shutil.copytree(bench.page, folder)
        for it in ("replay.mjs", "replay_worker.mjs"):
            shutil.copyfile(TOOLS / it, folder / it)
    for file in bench.calls.values():
        if not (folder / file.name).exists():
            shutil.copyfile(file, folder / file.name)
    return folder


def replay(bench: Bench, browser: Chromium | Firefox, name: str) -> None:
    """Each recorded call gives the same bytes and status in a worker of the browser."""
    names = [it.name for it in bench.calls.values()]
    found = browser.later(REPLAY, names)
    bench.judge("fault" not in found, f"{name}: {found.get('fault')}")
    for title, file in bench.calls.items():
        it = found.get(file.name, {"good": 0, "bad": 1, "told": ["nothing was said"]})
        said = "\n".join(it["told"])
        bench.judge(
            it["good"] > 0 and not it["bad"], f"{name}: {title}: {it['bad']} differ\n{said}"
        )
        counted = f"{it['good']} calls of {title} the same, in {name} {browser.version}"
        print(f"{counted}, {it.get('milliseconds')} ms", flush=True)


def try_chromium(bench: Bench) -> None:
    missing = [it for it in ("chromium", "chromedriver") if not shutil.which(it)]
    if missing:
        bench.pass_over("the page in Chromium", missing[0])
        return
    with Chromium() as browser:
        if bench.calls:
            with Serving(folder_of_calls(bench)) as serving:
                browser.open(serving.url)
                replay(bench, browser, "Chromium")
        Walk(bench, browser).all()


def try_firefox(bench: Bench) -> None:
    if not shutil.which("firefox-esr"):
        bench.pass_over("the page in Firefox", "firefox-esr")
        return
    with Serving(folder_of_calls(bench)) as serving, Firefox(bench.room) as browser:
        browser.open(serving.url)
        status, text = browser.later(FIRST_ANSWER)
        wanted = "option,2026-01-09,Desk,Client,EUR,3.60\n"
        bench.judge(text == wanted, f"Firefox: the page begins with {status} {text}")
        browser.picture(bench.pictures / "firefox.png")
        if bench.calls:
            replay(bench, browser, "Firefox")
