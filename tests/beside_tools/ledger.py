"""Sums of flow lines, reckoned by whole numbers, for what a ledger says of them."""

import os
import sys

import bench
import books


def split(text):
    """The parts of flow lines, with the amount as a number of cents."""
    rows = [line.split(",") for line in text.splitlines()]
    return [(name, day, payer, receiver, asset, int(amount.replace(".", ""))) for name, day, payer, receiver, asset, amount in rows]


def positions(lines, depth):
    """What each account has got: a party's for depth 1, a party's from another one for 2. None is 0."""
    sums = {}
    for _, _, payer, receiver, asset, cents in lines:
        for account, amount in (((payer, receiver), -cents), ((receiver, payer), cents)):
            key = ":".join(account[:depth]), asset
            sums[key] = sums.get(key, 0) + amount
    return {key: cents for key, cents in sums.items() if cents}


def falsified(text):
    """The lines with one amount that is a cent off, with one that goes the other way, and without one."""
    lines = text.splitlines(True)
    name, day, payer, receiver, asset, amount = lines[len(lines) // 2].rstrip("\n").split(",")
    off = f"{amount[:-1]}{(int(amount[-1]) + 1) % 10}"
    wrong = [f"{name},{day},{payer},{receiver},{asset},{off}\n"], [f"{name},{day},{receiver},{payer},{asset},{amount}\n"], []
    return ["".join(lines[: len(lines) // 2] + own + lines[len(lines) // 2 + 1:]) for own in wrong]


def some_flows(program):
    """Flow lines by name: of a book of the examples, one of the cases, and of a random book in three assets, whose lines are reckoned too."""
    flows = {}
    for parent, name, book in ((bench.EXAMPLES, "desk_book", "book.txt"), (bench.CASES, "treasury_flows", "treasury.txt")):
        folder = os.path.join(parent, name)
        status, flows[name], _ = bench.run(program, "flows", book, "fixings.csv", folder=folder)
        if status != 0:
            sys.exit(f"the flows of {name} end with {status}")
    dice = bench.Dice(1)
    market = books.Market(dice)
    book = books.Book(dice, market, 200)
    bench.write(book.text, "random.txt")
    bench.write(market.table(), "random.csv")
    flows["random"] = bench.run(program, "flows", "random.txt", "random.csv")[1]
    return flows, book, market
