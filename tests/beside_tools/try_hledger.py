"""hledger on flow lines: its balances are the sums of the lines, and the evening job books each line once."""

import csv
import os
import shutil
import sys
import tempfile

import bench
import books
from bench import read, run, write
from ledger import falsified, positions, some_flows, split

HERE = os.path.join(bench.EXAMPLES, "hledger")


def cents(amount):
    whole, _, part = amount.partition(".")
    return int(whole + part.ljust(2, "0"))


def balances(depth, file, *query):
    """What hledger says of the accounts, as `positions` does."""
    words = ["-f", file, *(["--rules-file", "flows.rules"] if file.endswith(".csv") else [])]
    status, text, said = run("hledger", *words, "balance", "--depth", str(depth), "-N", "-O", "csv", "--layout", "bare", *query)
    if status != 0:
        return said
    rows = list(csv.reader(text.splitlines()))[1:]
    return {(account, asset): cents(amount) for account, asset, amount in rows if cents(amount)}


def of_lines(text, depth, *query):
    write(text, "flows.csv")
    return balances(depth, "flows.csv", *query)


def try_sums(own, flows):
    for name, text in flows.items():
        lines = split(text)
        for depth in (1, 2):
            own.same(f"hledger, {name}, depth {depth}", positions(lines, depth), of_lines(text, depth))
        for wrong in falsified(text):
            got = of_lines(wrong, 1)
            own.judge(isinstance(got, dict) and got != positions(lines, 1), f"hledger, {name}: a falsified line is not noticed")
            # The balance of all parties is 0 all the same: it says nothing of the lines.
            total = {asset: sum(amount for (_, name), amount in got.items() if name == asset) for _, asset in got}
            own.same(f"hledger, {name}: a falsified line has another total than 0", set(), set(total.values()) - {0})


def try_files(own, flows):
    """Several files are one journal, and a fault line is none."""
    words = []
    for name, text in flows.items():
        write(text, f"{name}.lines.csv")
        words += ["-f", f"{name}.lines.csv"]
    status, text, said = run("hledger", *words, "--rules-file", "flows.rules", "register", "-O", "csv")
    own.same("hledger, several files", (0, 2 * sum(text.count("\n") for text in flows.values()) + 1), (status, text.count("\n")))
    write("fault missing FX 500\n", "flows.csv")
    own.judge("less than two fields" in balances(1, "flows.csv"), "hledger takes a fault line")


def try_random(own, program, flows, book, market):
    own.same("the flow lines of the random book", book.lines(), flows["random"])
    own.same("the assets of the random book", set(books.ASSETS), {asset for _, _, _, _, asset, _ in book.paid})
    status, text, _ = run(program, "flows", "random.txt", "random.csv", "--net")
    own.same("hledger, the random book, netted", (0, positions(split(book.lines()), 2)), (status, of_lines(text, 2)))
    # Without an origin all lines are on one date, and the day is the code.
    write(book.without_origin(), "plain.txt")
    write(market.table(origin=None), "plain.csv")
    text = run(program, "flows", "plain.txt", "plain.csv")[1]
    own.same("hledger, without an origin", positions(split(book.lines()), 2), of_lines(text, 2))
    day = str(book.paid[0][1])
    on_day = [line for line in split(book.lines(origin=None)) if line[1] == day]
    own.same(f"hledger, without an origin, day {day}", positions(on_day, 2), of_lines(text, 2, f"code:^{day}$"))


def positions_of(program, command, *words, folder=None):
    """What `positions` prints, or what the lines of `settle` come to, by day: the position of each party in each asset, in cents."""
    status, text, _ = run(program, command, *words, folder=folder)
    days = {}
    for line in text.splitlines() if status == 0 else ():
        fields = line.split(",")
        if command == "settle":
            days.setdefault(fields[1], []).append(line)
        else:
            days.setdefault(fields[0], {})[fields[1], fields[2]] = cents(fields[3])
    return {day: own if command == "positions" else positions(split("\n".join(own)), 1) for day, own in days.items()}


def try_positions(own, program):
    """On each day the balances of parties are the lines of `positions`, and what the lines of `settle` come to."""
    month, desk = (os.path.join(bench.EXAMPLES, name) for name in ("desk_month", "desk_book"))
    for title, folder, book, table in (("desk_book", desk, "book.txt", "fixings.csv"), ("desk_month", month, "book.txt", "fixings.csv"),
                                       ("the random book", ".", "random.txt", "random.csv")):
        write(run(program, "flows", book, table, folder=folder)[1], "flows.csv")
        told = positions_of(program, "positions", book, table, folder=folder)
        own.judge(told != {}, f"hledger, {title}: there are no positions")
        own.same(f"hledger, {title}: what settle comes to", told, positions_of(program, "settle", book, table, folder=folder))
        totals = {}
        for account, amount in [pair for day in told.values() for pair in day.items()]:
            totals[account] = totals.get(account, 0) + amount
        own.same(f"hledger, {title}: the sums of positions", {account: amount for account, amount in totals.items() if amount}, balances(1, "flows.csv"))
        for day in list(told)[:12]:
            own.same(f"hledger, {title}: positions of {day}", told[day], balances(1, "flows.csv", f"date:{day}"))


def evening(folder, day, **paths):
    desk = os.path.join(bench.TOP, "desk", "tilugba-desk")
    return run(os.path.join(HERE, "evening"), day, folder=folder, env={**os.environ, "TILUGBA_DESK": desk, **paths})


def a_desk(text, table):
    """A folder for the job, with a book and a table of fixings."""
    folder = tempfile.mkdtemp(dir=".")
    rules = {name: read(HERE, name) for name in ("flows.rules", "corrections.rules")}
    for path, content in {"today.txt": text, "fixings.csv": table, **rules}.items():
        write(content, folder, path)
    return folder


def booked(folder):
    """What is booked, and in how many transactions."""
    journal = os.path.join(folder, "books.journal")
    count = sum(line[:1].isdigit() for line in read(journal).splitlines())
    return balances(2, journal), count


def try_evenings(own, program, name, text, table, lines, days):
    """Evening after evening, and each fifth of them twice: all lines that were due are booked, each once."""
    folder = a_desk(text, table)
    due = {day: [line for line in split(lines) if line[1] < day] for day in days}
    for number, day in enumerate(days):
        statuses = {evening(folder, day, TILUGBA=program)[0] for _ in range(1 if number % 5 else 2)}
        own.same(f"{name}, evening {day}", ({0}, positions(due[day], 2), len(due[day])), (statuses, *booked(folder)))
    own.same(f"{name}: the kept lines are those of flows", sorted(lines.splitlines()), kept_lines(folder))
    return folder


def kept_lines(folder, name="due.csv"):
    kept = os.path.join(folder, "kept")
    files = [os.path.join(kept, step, name) for step in sorted(os.listdir(kept))]
    return sorted(line for file in files if os.path.exists(file) for line in read(file).splitlines())


def try_corrections(own, program, market, count):
    """Evenings by tables of which rows are wrong for a while: behind each, the journal has what the first book pays by its table."""
    dice = bench.Dice(count)
    wrong = books.Market(dice)
    wrong.fx, wrong.rate = list(market.fx), list(market.rate)
    book = books.Book(dice, market, 60)
    folder = a_desk(book.text, "")
    spoilt = {dice.between(0, 60) for _ in range(40)}
    for day in spoilt:
        wrong.fx[day], wrong.rate[day] = dice.between(8000, 11000), dice.between(-500, 9000)
    write(book.text, "first.txt")
    for day in range(5, books.DAYS, 9):
        # Each rate that is wrong at first is right from the second evening behind its day on.
        seen = books.Market(dice)
        seen.fx = [wrong.fx[it] if day - it <= 14 else market.fx[it] for it in range(books.DAYS)]
        seen.rate = [wrong.rate[it] if day - it <= 14 else market.rate[it] for it in range(books.DAYS)]
        write(seen.table(until=day), folder, "fixings.csv")
        write(seen.table(until=day), "seen.csv")
        status, _, said = evening(folder, books.day_text(day), TILUGBA=program)
        lines = run(program, "flows", "first.txt", "seen.csv", "--until", books.day_text(day - 1))[1]
        own.same(f"corrections {count}, evening {day}", (0, "", positions(split(lines), 2)), (status, said, booked(folder)[0]))
    corrections = kept_lines(folder, "corrections.csv")
    own.judge(len(corrections) > 4, f"corrections {count}: too few lines are corrected: {corrections}")
    ledger = sorted(kept_lines(folder) + [line[4:] for line in corrections if line.startswith("new,")])
    for line in [line[5:] for line in corrections if line.startswith("gone,")]:
        ledger.remove(line)
    last = [line for line in book.lines().splitlines() if line.split(",")[1] < books.day_text(day)]
    own.same(f"corrections {count}: all lines, without those that are taken back", sorted(last), ledger)
    own.same(f"corrections {count}: the journal", len(kept_lines(folder)) + len(corrections), booked(folder)[1])


def try_stops(own, program, book, market):
    """A missing fixing leaves all as it was. A job that stops before or behind the import is made good by that of a later day."""
    text = "# Positions, 2026\n" + book.text
    folder = a_desk(text, market.table(until=5))
    status, _, said = evening(folder, books.day_text(20), TILUGBA=program)
    own.judge(status == 8 and "missing fixing of " in said, f"an evening without fixings: status {status}, {said}")
    own.same("the book after a fault", (text, 0), (read(folder, "today.txt"), booked(folder)[1]))
    write(market.table(), folder, "fixings.csv")
    paths = {"PATH": os.path.abspath(folder) + ":" + os.environ["PATH"], "HLEDGER": shutil.which("hledger")}
    for step, day, stop in ((1, 20, "exit 1"), (3, 60, '"$HLEDGER" "$@"; exit 1'), (5, 90, "kill -KILL $PPID")):
        # It stops at the lines of this step, and not at those of the evening before.
        write(f'#!/bin/sh\ncase $* in *due/{step:04}.due.csv*) {stop};; esac\nexec "$HLEDGER" "$@"\n', folder, "hledger")
        os.chmod(os.path.join(folder, "hledger"), 0o755)
        status = evening(folder, books.day_text(day), TILUGBA=program, **paths)[0]
        kept = read(folder, "kept", f"{step:04}", "book.txt")
        own.judge(status in (1, -9) and f"start {day};" in kept, f"a stop on day {day}: status {status}")
        later = books.day_text(day + 10)
        due = [line for line in split(book.lines()) if line[1] < later]
        status = evening(folder, later, TILUGBA=program)[0]
        own.same(f"the evening of {later}", (0, positions(due, 2), len(due)), (status, *booked(folder)))
    status = evening(folder, books.day_text(books.DAYS), TILUGBA=program)[0]
    own.same("the last evening", (0, positions(split(book.lines()), 2), len(book.paid)), (status, *booked(folder)))
    own.same("the kept lines after stops", sorted(book.lines().splitlines()), kept_lines(folder))
    own.judge(f"start {books.DAYS};" in read(folder, "today.txt"), "the last evening leaves no book of its day")


def main():
    own, program = bench.Bench(), sys.argv[1]
    with tempfile.TemporaryDirectory() as room:
        os.chdir(room)
        write(read(HERE, "flows.rules"), "flows.rules")
        flows, book, market = some_flows(program)
        try_sums(own, flows)
        try_files(own, flows)
        try_random(own, program, flows, book, market)
        try_positions(own, program)
        month = os.path.join(bench.EXAMPLES, "desk_month")
        lines = run(program, "flows", "book.txt", "fixings.csv", folder=month)[1]
        days = [f"2026-01-{day:02}" for day in range(6, 32)] + [f"2026-02-{day:02}" for day in range(1, 6)]
        try_evenings(own, program, "desk_month", read(month, "book.txt"), read(month, "fixings.csv"), lines, days)
        days = [books.day_text(day) for day in range(7, books.DAYS + 7, 9)]
        try_evenings(own, program, "the random book", book.text, market.table(), book.lines(), days)
        try_stops(own, program, book, market)
        for count in (1, 2):
            try_corrections(own, program, market, count)
        # What the page shows of the example book.
        write(flows["desk_book"], "flows.csv")
        status, text, said = run("bash", os.path.join(HERE, "reports"))
        own.same("the reports", (0, read(HERE, "reports.out").split()), (status, (text + said).split()))
        os.chdir("/")
    own.end()


main()
