"""The group `sets` of tests/operations: split-set splits sets of scenarios, and join-sets joins what a night run makes of them."""

import os
import random
import re

import __main__ as own

HEADER = "scenario,label,day,value\n"
CODE = "payoff 1;\namounts 2;\nparty A, B;\nasset EUR;\nnum FX : 4 in -2.0000 .. 2.0000;\nflag Up;\n"
RATE = CODE + "code c = scale(round(floor, 2, (model(FX, 3) * 100.00)), pay(0, EUR, A, B));\n"
CURVE = "offset,factor\n0,0.987654321\n"
QUESTION = ["--at", "0", "--from", "A", "--to", "B", "--asset", "EUR", "--mean"]
MODES = ("half_even", "half_away", "floor", "ceil")


def splits(title, status, *words):
    own.gives(title, "", status, *own.tool("split-set"), *words)


def joins(title, want, status, *words, **how):
    own.gives(title, want, status, *own.tool("join-sets"), *words, **how)


def quotient(mode, top, below):
    """The whole number that the mode picks, from the two next to the quotient."""
    low = top // below
    high = low if top % below == 0 else low + 1
    if mode in ("floor", "ceil"):
        return low if mode == "floor" else high
    if abs(top - low * below) != abs(high * below - top):
        return min((low, high), key=lambda it: abs(top - it * below))
    return max((low, high), key=abs) if mode == "half_away" else next(it for it in (low, high) if it % 2 == 0)


def decimal(mantissa):
    digits = str(abs(mantissa)).rjust(12, "0")
    return ("-" if mantissa < 0 else "") + digits[:-11] + "." + digits[-11:]


def lines_of(cents, mode):
    """The lines of a set whose scenarios pay so many cents on the first day."""
    values = {name: it * 987_654_321 for name, it in cents.items()}
    total, least, greatest = sum(values.values()), min(values, key=values.get), max(values, key=values.get)
    text = "".join(f"{name},{decimal(it)}\n" for name, it in values.items())
    text += f"total,{decimal(total)}\nmean,{decimal(quotient(mode, total, len(values)))}\n"
    return text + f"least,{least},{decimal(values[least])}\ngreatest,{greatest},{decimal(values[greatest])}\n"


def some_set(dice):
    """A table of scenarios in some order of its rows, and the cents of each scenario in the order of its first row."""
    names = dice.sample(["total", "mean", "least", "up", "Down", "_x", "a1", "a2", "a3", "b" * 64, "EUR"], dice.randrange(1, 11))
    rates = {name: dice.randrange(-20000, 20001) for name in names}
    rows = [(name, f"FX,3,{rate / 10000:.4f}") for name, rate in rates.items()] + [("*", f"FX,{day},1.{day}") for day in range(4, 8)]
    rows += [(dice.choice(names), f"FX,{dice.randrange(-9, 0)},0.5") for _ in range(3)] + [("*", "Up,0,true")]
    dice.shuffle(rows)
    quoted = lambda name: f'"{name}"' if dice.random() < 0.2 else name
    ends = [dice.choice(["\n", "\n", "\r\n", "\n\n\r"]) for _ in rows]
    ends[-1] = dice.choice(["", "\n"])
    order = dict.fromkeys(name for name, _ in rows if name != "*")
    text = dice.choice(["", "\ufeff"]) + HEADER + "".join(quoted(name) + "," + rest + end for (name, rest), end in zip(rows, ends))
    return text, {name: rates[name] for name in order}


def check_sets():
    """The lines of the parts, joined, are those of the whole set, and are as reckoned."""
    own.fresh("sets")
    own.put("c.code", RATE)
    own.put("curve.csv", CURVE)
    dice = random.Random(7)
    for seed in range(12):
        text, cents = some_set(dice)
        mode, count = MODES[seed % 4], dice.randrange(1, 6)
        own.put("set.csv", text)
        want = lines_of(cents, mode)
        own.gives(f"set {seed}", want, 0, own.program, "scenarios", "c.code", "set.csv", "curve.csv", *QUESTION, mode)
        splits(f"set {seed} in parts", 0, "set.csv", str(count), f"parts{seed}")
        parts = [f"parts{seed}/{name}" for name in sorted(os.listdir(f"parts{seed}"))]
        sizes = [len(set(re.findall("^([A-Za-z0-9_]+),", own.read(part).replace('"', ""), re.M)) - {"scenario"}) for part in parts]
        even = len(parts) == min(count, len(cents)) and sum(sizes) == len(cents) and max(sizes) - min(sizes) <= 1
        own.judge(f"the sizes of the parts of set {seed}", even, sizes)
        words = " ".join(["scenarios c.code {} curve.csv", *QUESTION, "floor"])
        own.nights(f"a night of set {seed}", [own.counted(len(parts), len(parts), 0, 0)], 0, words, parts, f"lines{seed}")
        joins(f"the lines of set {seed}", want, 0, mode, *[part.replace("parts", "lines") for part in parts])


def check_set_faults():
    """What is wrong with a set is wrong with a part; a set of too many scenarios can be split; the faults of both tools."""
    os.chdir("sets")
    words = ["curve.csv", *QUESTION, "ceil"]
    rows = "a,FX,3,1\nb,FX,3,1.1\n*,Up,0,true\nc,FX,3,0.5\n"
    for title, row, status, said in [
        ("a conflict with all", "b,Up,0,false\n", 7, "fault row file 2 record 4 conflict with 3\n"),
        ("a bad value", "b,FX,3,x\n", 7, "fault row file 2 record 4 value\n"),
        ("a missing rate", "b2,FX,2,1\n", 8, "fault missing FX 3 in b2\n"),
    ]:
        own.put("bad.csv", HEADER + rows + row)
        splits(f"a set with {title}", 0, "bad.csv", "4", title)
        got = [own.run(own.program, "scenarios", "c.code", f"{title}/{name}", *words) for name in sorted(os.listdir(title))]
        own.judge(f"a part with {title}", [it for it in got if it[1] != 0] == [(said, status)], got)
    much = CODE + "code c = scale(4000000000000000000000000.00, cut(1, pay(0, EUR, A, B)));\n"
    own.put("much.code", much)
    own.put("many.csv", HEADER + rows)
    later = ["curve.csv", "--at", "2", *QUESTION[2:], "ceil"]
    own.gives("too many scenarios", "fault scenarios 3\n", 12, own.program, "scenarios", "much.code", "many.csv", *later)
    splits("too many scenarios in parts", 0, "many.csv", "3", "few")
    for name in sorted(os.listdir("few")):
        text, status = own.run(own.program, "scenarios", "much.code", f"few/{name}", *later)
        own.judge(f"a part of too many scenarios, {name}", status == 0, text)
        own.put(f"few/{name}.lines", text)
    zero = "0.00000000000"
    want = "".join(f"{name},{zero}\n" for name in "abc") + f"total,{zero}\nmean,{zero}\nleast,a,{zero}\ngreatest,a,{zero}\n"
    joins("too many scenarios, joined", want, 0, "floor", *[f"few/0000{number}.csv.lines" for number in (1, 2, 3)])
    own.put("table.csv", "label,day,value\nFX,0,1\n")
    own.put("all.csv", HEADER + "*,FX,0,1\n")
    own.put("five.csv", HEADER + "a,FX,0,1,\n")
    for title, status, *words in [
        ("no words", 2),
        ("two words", 2, "many.csv", "2"),
        ("no parts", 2, "many.csv", "0", "none"),
        ("parts that are no number", 2, "many.csv", "two", "none"),
        ("no set", 3, "nofile", "2", "none"),
        ("a table of fixings", 7, "table.csv", "2", "none"),
        ("a set of rows of all", 7, "all.csv", "2", "none"),
        ("a field too many", 7, "five.csv", "2", "none"),
        ("a folder with tables", 70, "many.csv", "2", "few"),
        ("a file for a folder", 4, "many.csv", "2", "all.csv"),
    ]:
        splits(f"split-set, {title}", status, *words)
    own.judge("split-set makes no folder then", not os.path.exists("none"))
    lines = own.read("few/00001.csv.lines")
    for name, text in {
        "one": lines,
        "cut": lines[:-1],
        "short": lines.split("\n", 1)[1],
        "fault": "fault scenarios 2\n",
        "fewer": lines.replace(zero, "0.0000000000"),
        "mixed": lines.replace("total", "sum"),
    }.items():
        own.put(f"{name}.lines", text)
    for title, status, *words in [
        ("no words", 2),
        ("no part", 2, "floor"),
        ("no mode", 2, "one.lines", "one.lines"),
        ("no file", 3, "floor", "one.lines", "nofile"),
        ("a scenario twice", 7, "floor", "one.lines", "one.lines"),
        ("a text without its end", 7, "floor", "cut.lines"),
        ("lines without a scenario", 7, "floor", "short.lines"),
        ("a fault", 7, "floor", "fault.lines"),
        ("other decimals", 7, "floor", "fewer.lines", "few/00002.csv.lines"),
        ("another word for the sum", 7, "floor", "mixed.lines"),
    ]:
        joins(f"join-sets, {title}", "", status, *words)
    joins("a part alone", lines, 0, "half_even", "one.lines")
    with open("/dev/full", "wb") as full:
        joins("a full device", "", 4, "floor", "one.lines", stdout=full)
