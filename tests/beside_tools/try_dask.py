"""Dask on this machine's loopback: the runs of the example over two workers, one of which has little memory or is lost."""

import hashlib
import os
import subprocess
import sys
import tempfile
import time
from fractions import Fraction

import bench
import books
import histories
import processes
from bench import read, run, write

HERE = os.path.join(bench.EXAMPLES, "dask")
sys.path.insert(0, HERE)
from distributed import Client
from spread import answers, total

FLOWS = ["flows", "book", "fixings"]
# A worker's program notes each run by the checksum of its first file. A small machine cannot do a long book: the run ends with the
# status of a program that is out of memory, or by the signal that a system sends then.
PROGRAM = """#!/bin/sh
echo "$NAME" "$(md5sum <"$2" | cut -c 1-32)" >>"$LOG"
size=$(wc -c <"$2")
if [ "$size" -gt "$MOST" ]; then
  [ "$((size % 2))" -eq 0 ] || kill -KILL "$$"
  exit 9
fi
sleep "$PAUSE"
exec "$PLAIN" "$@"
"""
LONG = 50_000
SET_OPTIONS = "--at 0 --from Desk --to Client --asset EUR --mean half_even"


class Cluster:
    """A scheduler and workers, each of them a process of its own."""

    def __init__(self, room, program):
        self.room, self.program, self.log = room, program, os.path.join(room, "log")
        self.address = f"tcp://127.0.0.1:{processes.free_ports(1)[0]}"
        self.workers = {}
        write(PROGRAM, room, "program")
        os.chmod(os.path.join(room, "program"), 0o755)
        self.start("dask_scheduler", "--host", "127.0.0.1", "--port", self.address.rpartition(":")[2])

    def start(self, kind, *words, **settings):
        words = [sys.executable, "-m", f"distributed.cli.{kind}", "--no-dashboard", "--dashboard-address", "127.0.0.1:0", *words]
        return processes.start(words, os.path.join(self.room, f"{kind}.said"), cwd=self.room, env={**os.environ, **settings})

    def add(self, name, most=10 ** 9, pause=0):
        settings = {"TILUGBA": os.path.join(self.room, "program"), "PLAIN": self.program, "LOG": self.log, "PYTHONPATH": histories.DESK}
        settings["TILUGBA_LIBRARY"] = ""
        words = self.address, "--name", name, "--host", "127.0.0.1", "--nthreads", "1", "--no-nanny"
        self.workers[name] = self.start("dask_worker", *words, NAME=name, MOST=str(most), PAUSE=str(pause), **settings)

    def end(self, name):
        """Ends a worker by its own number, without a word."""
        processes.kill(self.workers.pop(name).pid)

    def is_up(self, client):
        names = lambda: {worker["name"] for worker in client.scheduler_info()["workers"].values()}
        return processes.wait_for(lambda: names() == set(self.workers), 300)

    def runs(self):
        """How often each book was run since this was asked last."""
        text = read(self.log) if os.path.exists(self.log) else ""
        write("", self.log)
        counts = {}
        for line in text.splitlines():
            counts[line.split()[1]] = counts.get(line.split()[1], 0) + 1
        return counts


def sum_of(data):
    return hashlib.md5(data).hexdigest()


def many_books(room):
    """60 books, twelve of which are long, one of no text and one without a fixing; answers their names and what each has to give."""
    dice = bench.Dice(3)
    market = books.Market(dice)
    write(market.table(), room, "fixings.csv")
    want = {}
    for number in range(60):
        book = books.Book(dice, market, 500 if number % 5 == 0 else dice.between(1, 9), f"b{number}_")
        text, name = book.text, f"{number:02}.txt"
        want[name] = 0, book.lines()
        if number == 17:
            text, want[name] = text.replace("asset ", "asset ;"), (6, "fault text syntax line 5 column 7\n")
        if number == 33:
            text += "contract late = after(400, scale(round(half_even, 2, obs(FX, 0)), pay(EUR, Desk, Bank)));\n"
            want[name] = 8, "fault missing FX 400\n"
        write(text, room, name)
    return want


def said_of_books(text):
    """What a script says of books; Dask may say something of a machine that has much to do."""
    return "".join(line for line in text.splitlines(True) if ".txt: status " in line)


def night(room, address, names):
    """The status of the example's script, what it prints, and what it says of books."""
    status, text, said = run(sys.executable, "-B", os.path.join(HERE, "night.py"), address, "fixings.csv", *names, folder=room)
    return status, text, said_of_books(said)


def judge_night(own, title, want, got):
    lines = "".join(text for status, text in want.values() if status == 0)
    said = "".join(f"{name}: status {status} {text}" for name, (status, text) in want.items() if status != 0)
    own.same(title, (1, lines, said), got)


def try_night(own, cluster, room, want):
    judge_night(own, "Dask, a night", want, night(room, cluster.address, want))
    own.same("Dask, each book is run once", {sum_of(read(room, name).encode()): 1 for name in want}, cluster.runs())
    after_another = [run(cluster.program, "flows", name, "fixings.csv", folder=room) for name in want]
    own.same("one run after another", list(want.values()), [(status, text) for status, text, _ in after_another])


def try_scenarios(own, cluster, room, client):
    """One code file under 200 tables: the sum is that of the values, which are reckoned from the rates."""
    dice, names, cents = bench.Dice(4), [], 0
    for number in range(200):
        rate = dice.between(9000, 9900)
        names.append(f"course{number}.csv")
        write(f"label,day,value\nUSDEUR,84,0.{rate}\n", room, names[-1])
        # 1,234,567 times a ten-thousandth is 123.4567.
        cents += round(Fraction(max(0, rate - 9200) * 1_234_567, 100))
    want = Fraction(cents * 995_213_477, 10 ** 11)
    files = [os.path.join(HERE, name) for name in ("option.code", "curve.csv")]
    words = sys.executable, "-B", os.path.join(HERE, "scenarios.py"), cluster.address, *files
    status, text, _ = run(*words, *names, folder=room)
    own.same("Dask, the sum of 200 values", (0, want), (status, Fraction(text.strip() or 0)))
    write("label,day,value\nUSDEUR,83,0.9217\n", room, names[77])
    status, text, said = run(*words, *names, folder=room)
    own.judge(status != 0 and text == "" and "fault missing USDEUR 84" in said, f"Dask, a missing rate: {status}, {text}, {said}")
    cluster.runs()


def make_set(room):
    """A set of 500 scenarios of one rate, with a row for all of them in its middle; answers what `scenarios` has to print."""
    dice, rows = bench.Dice(5), ["scenario,label,day,value\n"]
    rates = [dice.between(9000, 9900) for _ in range(500)]
    rows += [f"s{number},USDEUR,84,0.{rate}\n" for number, rate in enumerate(rates)]
    rows.insert(250, "*,USDEUR,83,0.9000\n")
    write("".join(rows), room, "set.csv")
    values = [round(Fraction(max(0, rate - 9200) * 1_234_567, 100)) * 995_213_477 for rate in rates]
    text = lambda value: books.decimal(value, 11)
    least, greatest = values.index(min(values)), values.index(max(values))
    lines = [f"s{number},{text(value)}\n" for number, value in enumerate(values)]
    lines += [f"total,{text(sum(values))}\n", f"mean,{text(round(Fraction(sum(values), 500)))}\n"]
    return "".join([*lines, f"least,s{least},{text(values[least])}\n", f"greatest,s{greatest},{text(values[greatest])}\n"])


def words_of_set(cluster, parts, name="set.csv"):
    """The words of the example's script for a set, which its page shows."""
    code, curve = (os.path.join(HERE, name) for name in ("option.code", "curve.csv"))
    return [sys.executable, "-B", os.path.join(HERE, "set.py"), cluster.address, str(parts), code, name, curve, *SET_OPTIONS.split()]


def try_set(own, cluster, room):
    """A set in parts is as the whole set: what is printed is reckoned from the rates, and is what one run prints."""
    want = make_set(room)
    one = [cluster.program, "scenarios", os.path.join(HERE, "option.code"), "set.csv", os.path.join(HERE, "curve.csv")]
    own.same("one run of a set", (0, want), run(*one, *SET_OPTIONS.split(), folder=room)[:2])
    for parts in (1, 24):
        cluster.runs()
        own.same(f"Dask, a set in {parts} parts", (0, want), run(*words_of_set(cluster, parts), folder=room)[:2])
        own.same(f"Dask, the runs of {parts} parts", parts, sum(cluster.runs().values()))
    write(read(room, "set.csv").replace("s499,USDEUR,84,", "s499,USDEUR,85,"), room, "lacks.csv")
    status, text, said = run(*words_of_set(cluster, 4, "lacks.csv"), folder=room)
    own.same("Dask, a part without values", (1, "", True), (status, text, "00004.csv: status 8 fault missing USDEUR 84 in s499\n" in said))
    cluster.runs()


def try_small_worker(own, cluster, room, client, want):
    """What a small machine could not do another one does, and the faults of files are not tried again."""
    cluster.end("second")
    cluster.add("small", most=LONG)
    own.judge(cluster.is_up(client), "Dask: the small worker does not come up")
    judge_night(own, "Dask, with a small worker", want, night(room, cluster.address, want))
    runs = cluster.runs()
    twice = [name for name in want if runs[sum_of(read(room, name).encode())] == 2]
    own.judge(twice and all(os.path.getsize(os.path.join(room, name)) > LONG for name in twice), f"Dask, run again are {twice}")
    own.same("Dask, with a small worker, all runs", 60 + len(twice), sum(runs.values()))
    status, _ = answers(client, FLOWS, [{"book": b"portfolio 1;"}])[0]
    own.same("Dask, a file that no worker has", (3, 2), (status, sum(cluster.runs().values())))
    cluster.end("small")


def try_example_cluster(own, program, room, want):
    """The cluster of the example: it serves, listens here alone, and ends with its script."""
    port = str(processes.free_ports(1)[0])
    script = processes.start([os.path.join(HERE, "cluster"), port], os.path.join(room, "said"), env={**os.environ, "TILUGBA": program})
    judge_night(own, "Dask, the example's cluster", want, night(room, f"tcp://127.0.0.1:{port}", want))
    own.same("Dask, where the example's cluster listens", {"loopback"}, processes.open_addresses())
    script.terminate()
    own.same("Dask, the example's cluster is ended", 143, script.wait(300))
    is_gone = lambda: processes.reap() or not processes.below(os.getpid())
    own.judge(processes.wait_for(is_gone, 300), "Dask: the example's cluster leaves a process")


def run_and_lose(own, cluster, room, words, worker):
    """A script of the example, with a worker that is lost after 20 runs: its status, what it prints, and what it says."""
    script = subprocess.Popen(words, cwd=room, stdout=subprocess.PIPE, stderr=subprocess.PIPE)
    logged = lambda: os.path.exists(cluster.log) and read(cluster.log).count("\n") >= 20
    own.judge(processes.wait_for(logged, 300), "Dask: no 20 runs")
    cluster.end(worker)
    out, said = script.communicate(timeout=600)
    return script.returncode, out.decode(), said.decode()


def try_lost_worker(own, cluster, room, client, want):
    """A worker is lost in the middle of the night, and another one in the middle of a set."""
    cluster.end("first")
    for name in ("third", "fourth"):
        cluster.add(name, pause=0.2)
    own.judge(cluster.is_up(client), "Dask: new workers do not come up")
    words = [sys.executable, "-B", os.path.join(HERE, "night.py"), cluster.address, "fixings.csv", *want]
    status, text, said = run_and_lose(own, cluster, room, words, "third")
    judge_night(own, "Dask, with a lost worker", want, (status, text, said_of_books(said)))
    own.judge(sum(cluster.runs().values()) > 60, "Dask, with a lost worker: nothing was run again")
    cluster.add("fifth", pause=0.2)
    own.judge(cluster.is_up(client), "Dask: the fifth worker does not come up")
    got = run_and_lose(own, cluster, room, words_of_set(cluster, 60), "fifth")
    own.same("Dask, a set with a lost worker", (0, make_set(room)), got[:2])
    own.judge(sum(cluster.runs().values()) > 60, "Dask, a set with a lost worker: nothing was run again")


def try_history(own, cluster, room, client):
    """A history over two workers is that of this machine, also if one of them is lost on the way, or both."""
    plain = {**os.environ, "PLAIN": cluster.program, "LOG": os.path.join(room, "own.log"), "NAME": "own", "MOST": str(10 ** 9), "PAUSE": "0"}
    for key in ("TILUGBA_LIBRARY", "TILUGBA"):
        plain.pop(key, None)
    for name in list(cluster.workers):
        cluster.end(name)
    for name in ("sixth", "seventh"):
        cluster.add(name, pause=0.02)
    own.judge(cluster.is_up(client), "Dask: the workers of a history do not come up")
    history = histories.History(room, cluster.program)
    history.program = os.path.join(room, "program")
    words = history.words("--dask", cluster.address)
    cluster.runs()
    begun = time.monotonic()
    script = subprocess.Popen(words, cwd=history.room, env=plain, stdout=subprocess.PIPE, stderr=subprocess.PIPE)
    logged = lambda: os.path.exists(cluster.log) and read(cluster.log).count("\n") >= 40
    own.judge(processes.wait_for(logged, 300), "Dask: no 40 values of a history")
    cluster.end("sixth")
    out, said = script.communicate(timeout=600)
    took = time.monotonic() - begun
    own.same("Dask, a history with a lost worker", (0, history.want[1]), (script.returncode, out.decode()))
    asked = sum(cluster.runs().values())
    own.judge(asked > history.count, f"Dask, a history with a lost worker: nothing was asked again, {asked} of {history.count} in {took:.1f} s: {said}")
    cluster.add("eighth")
    own.judge(cluster.is_up(client), "Dask: the eighth worker does not come up")
    own.same("Dask, a history", (0, history.want[1]), run(*words, folder=history.room, env=plain)[:2])
    own.same("Dask, a history asks each value once", history.count, sum(cluster.runs().values()))
    other = run(*history.words("--dask", cluster.address, "--program", cluster.program), folder=history.room, env=plain)
    own.same("Dask, a worker with another program", (70, ""), other[:2])


def main():
    own, program = bench.Bench(), sys.argv[1]
    processes.adopt()
    with tempfile.TemporaryDirectory() as room:
        try:
            want = many_books(room)
            try_example_cluster(own, program, room, want)
            cluster = Cluster(room, program)
            for name in ("first", "second"):
                cluster.add(name)
            with Client(cluster.address, timeout=300) as client:
                if own.judge(cluster.is_up(client), "Dask: its two workers do not come up"):
                    own.same("Dask, where it listens", {"loopback"}, processes.open_addresses())
                    try_night(own, cluster, room, want)
                    try_scenarios(own, cluster, room, client)
                    try_set(own, cluster, room)
                    try_small_worker(own, cluster, room, client, want)
                    try_lost_worker(own, cluster, room, client, want)
                    try_history(own, cluster, room, client)
        finally:
            own.judge(not processes.end_all(), "Dask: a process would not end")
    own.end()


main()
