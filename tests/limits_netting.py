"""Positions, settlements and novations at their limits, for tests/limits: from the numbers that made the files, by whole numbers."""

import subprocess

from model import decimal

GREATEST = 16_777_216
TABLE = "label,day,value\n"


def net_positions(sums, decimals):
    """The lines of sums by (day, asset, party), in which parties are p and a number: those of positions, and those that settle them."""
    lines, paid, due = [], [], {}
    for (day, asset, party), amount in sorted(sums.items()):
        if amount:
            lines.append(f"{day},p{party},{asset},{decimal(amount, decimals[asset])}\n")
            due.setdefault((day, asset), []).append([party, amount])
    for (day, asset), dues in due.items():
        owes, owed = ([[party, abs(amount)] for party, amount in dues if (amount > 0) == is_owed] for is_owed in (False, True))
        one = other = 0
        while one < len(owes):
            least = min(owes[one][1], owed[other][1])
            paid.append(f"*,{day},p{owes[one][0]},p{owed[other][0]},{asset},{decimal(least, decimals[asset])}\n")
            owes[one][1] -= least
            owed[other][1] -= least
            one += owes[one][1] == 0
            other += owed[other][1] == 0
    return lines, paid


def many_positions(bench):
    """Positions and settlements of 180,000 contracts of version 2 in two assets: between few parties on many days; between as many
    parties as contracts on one day, of which each is owed; with one that owes all others."""
    number, decimals = 180_000, {"E": 2, "Y": 0}
    books = (
        ("few parties", 40, lambda i: (i * 7 % 9_973, i % 40, (i * 11 + i // 40 + 1) % 40)),
        ("many parties", number, lambda i: (0, i, (i * 7 + 3) % number)),
        ("one that owes", number, lambda i: (i % 2, 1, i)),
    )
    for title, parties, trade in books:
        texts = ["portfolio 2;\namounts 2;\nparty ", ", ".join(f"p{i}" for i in range(parties)), ";\nasset E, Y : 0;\n"]
        sums = {}
        for i in range(number):
            day, payer, receiver = trade(i)
            asset = "EY"[i % 3 == 0]
            texts.append(f"contract c{i}=after({day},scale({decimal(i + 1, decimals[asset])},pay({asset},p{payer},p{receiver})));\n")
            for party, change in ((payer, -i - 1), (receiver, i + 1)):
                sums[day, asset, party] = sums.get((day, asset, party), 0) + change
        bench.put("positions.txt", "".join(texts).ljust(GREATEST, "\n"))
        lines, paid = net_positions(sums, decimals)
        bench.gives(f"positions of {title}", 0, lines, "positions", "positions.txt")
        bench.gives(f"a settlement of {title}", 0, paid, "settle", "positions.txt")
        early = {account: amount for account, amount in sums.items() if account[0] <= 500}
        lines, paid = net_positions(early, decimals)
        bench.gives(f"positions of {title} up to a day", 0, lines, "positions", "positions.txt", "--until", "500")
        bench.gives(f"a settlement of {title} up to a day", 0, paid, "settle", "positions.txt", "--until", "500")


def many_novated(bench):
    """A new party in one of two contracts of nearly 100,000 nodes, beside one of 192 levels and one that has read."""
    number, day, names = 16_000, 5_000, "ABC"
    head = "portfolio 1;\namounts 2;\nparty A, B, C, D;\nasset E;\nnum F : 4 in 0.5000 .. 2.0000;\n"

    def tree(parts):
        half = (len(parts) + 1) // 2
        return parts[0] if len(parts) == 1 else f"both({tree(parts[:half])}, {tree(parts[half:])})"

    def pays(i):
        return f"scale({decimal(i + 1, 2)}, pay(E, {names[i % 3]}, {names[(i + 1) % 3]}))"

    def lines(contract, parties, days):
        """Each day one party pays the next of three."""
        for i in days:
            one, other = parties[i % 3], parties[(i + 1) % 3]
            if one != other:
                yield f"{contract},{i},{one},{other},E,{decimal(i + 1, 2)}\n"

    whole = tree([f"after({i}, {pays(i)})" for i in range(number)])
    deep = "after(1, " * 190 + pays(2) + ")" * 190
    read = "let x = obs(F, 0) in after(9000, scale(round(floor, 2, (x * 7.00)), pay(E, A, D)))"
    bench.put("novated.txt", head + f"contract one = {whole};\ncontract two = {whole};\ncontract deep = {deep};\ncontract read = {read};\n")
    bench.put("novated.csv", TABLE + "F,0,1.2345\n")
    due = [f"# {line}" for contract in ("one", "two") for line in lines(contract, names, range(day))] + ["# deep,190,C,A,E,0.03\n"]
    for contract, old, new in (("one", "B", "D"), ("two", "A", "B"), ("one", "D", "A")):
        words = "novate", "novated.txt", "novated.csv", "--to", str(day), "--contract", contract, "--old", old, "--new", new
        done = subprocess.run([bench.program, *words], stdout=subprocess.PIPE, stderr=subprocess.DEVNULL, check=False)
        text = done.stdout.decode()
        bench.put("later.txt", text)
        told = [line for line in text.splitlines(True) if line.startswith("#")]
        bench.holds("what was due before a novation", (0, due), (done.returncode, told))
        parties = {own: names.replace(old, new) if own == contract else names for own in ("one", "two")}
        later = [line for own in ("one", "two") for line in lines(own, parties[own], range(day, number))]
        bench.gives("what is left after a novation", 0, later + ["read,9000,A,D,E,8.64\n"], "flows", "later.txt")


GROUPS = (many_positions, many_novated)
