"""What needs no tool: the page shows the files of the examples, flow lines are as reckoned, and the night's task does without a queue."""

import os
import re
import subprocess
import sys
import tempfile

import bench
import books
from bench import read, run, write

PAGE = os.path.join(bench.TOP, "docs", "BESIDE-OTHER-TOOLS.md")
FOLDERS = ("hledger", "quantlib", "recipes", "slurm", "dask")
# What `examples/check` reads, and the books and tables.
NOT_SHOWN = {"command", "output", "book.txt", "observed.csv", "assumed.csv", "option.txt", "option.code", "curve.csv", "course.csv", "decls.txt", "rows.csv"}


def try_page(own):
    """Each text of the page is a file of an example, and each such file is on the page."""
    blocks = dict(re.findall(r"^```text (\S+)\n(.*?)^```$", read(PAGE), re.M | re.S))
    files = {}
    for folder in FOLDERS:
        for name in sorted(os.listdir(os.path.join(bench.EXAMPLES, folder))):
            files.setdefault(name, []).append(os.path.join(bench.EXAMPLES, folder, name))
    for name, text in blocks.items():
        own.judge(text in [read(path) for path in files.get(name, [])], f"the page shows {name}, which is no file of the examples")
    for path in [path for name, paths in files.items() if name not in NOT_SHOWN and name not in blocks for path in paths]:
        own.judge(f"`{os.path.relpath(path, bench.TOP)}`" in read(PAGE), f"the page neither shows nor names {path}")
    set_words = "set.py tcp://127.0.0.1:8786 24 option.code set.csv curve.csv --at 0 --from Desk --to Client --asset EUR --mean half_even"
    for command in ("./submit out/again fixings.csv out", "night.py tcp://127.0.0.1:8786 fixings.csv books/*.txt", set_words):
        own.judge(command in read(PAGE), f"the page does not show {command}, which is tried")


def try_books(own, program):
    dice = bench.Dice(5)
    for number in range(20):
        market = books.Market(dice)
        book = books.Book(dice, market, 30)
        origin = dice.one((books.ORIGIN, None))
        write(book.text if origin else book.without_origin(), "book.txt")
        write(market.table(origin=origin), "fixings.csv")
        got = run(program, "flows", "book.txt", "fixings.csv")
        own.same(f"the flow lines of book {number}", (0, book.lines(origin=origin), ""), got)


def task(program, number):
    """A task of the night, as a queue starts it."""
    settings = {**os.environ, "TILUGBA": program, "SLURM_ARRAY_TASK_ID": str(number)}
    return subprocess.Popen(["bash", os.path.join(bench.EXAMPLES, "slurm", "night"), "list", "fixings.csv", "out"], env=settings)


def morning(own, title, said, again):
    status, text, _ = run("bash", os.path.join(bench.EXAMPLES, "slurm", "morning"), "list", "out")
    own.same(title, (0, said, "".join(name + "\0" for name in again)), (status, text, read("out", "again")))


def joined(names):
    return "".join(read("out", f"{os.path.basename(name)}.flows") for name in names)


def try_night(own, program):
    """Two tasks, each of them given out twice, in a folder that has the results of another night."""
    dice = bench.Dice(6)
    market = books.Market(dice)
    names = [f"books/{number}.txt" for number in range(147)] + ["books/$(touch oops).txt", "books/a b\nc.txt", "books/-x"]
    made = {name: books.Book(dice, market, 3, f"b{number}_") for number, name in enumerate(names)}
    os.mkdir("books")
    os.mkdir("out")
    for name, book in made.items():
        write(book.text, name)
    write(market.table(), "fixings.csv")
    write("".join(name + "\0" for name in names), "list")
    for name in ("3.txt.flows", "4.txt.fault", "149.txt.flows"):
        write("of another night\n", "out", name)
    write(made[names[3]].text + "contract half = scale(0.005, pay(EUR, Desk, Bank));\n", names[3])
    morning_text = "books/3.txt: fault refused half scale node 0 status 1\n"
    own.same("the statuses of the night", [1, 1, 0, 0], [it.wait(600) for it in [task(program, number) for number in (0, 0, 1, 1)]])
    morning(own, "what the morning says", morning_text, [names[3]])
    write(made[names[3]].text, names[3])
    own.same("a task is run again", 0, task(program, 0).wait(600))
    morning(own, "the next morning", "", [])
    own.same("the lines of the night", "".join(made[name].lines() for name in names), joined(names))
    done = {f"{os.path.basename(name)}.flows" for name in names}
    own.same("what the night leaves beside", {"again", "149.txt.flows"}, set(os.listdir("out")) - done)
    own.judge(not os.path.exists("oops"), "a name of a book was run as a command")
    os.remove("out/5.txt.flows")
    morning(own, "a book that was never run", "books/5.txt: never run\n", [names[5]])


def main():
    own, program = bench.Bench(), sys.argv[1]
    with tempfile.TemporaryDirectory() as room:
        os.chdir(room)
        try_page(own)
        try_books(own, program)
        try_night(own, program)
        os.chdir("/")
    own.end()


main()
