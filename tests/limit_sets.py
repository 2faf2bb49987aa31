"""The groups of tests/limits that are sets of scenarios."""

from fractions import Fraction

import __main__ as own

SET = "scenario,label,day,value\n"


def scenario_lines(names, values, mode):
    """The lines of scenarios, whose values are in units of the eleventh decimal."""
    least, greatest = values.index(min(values)), values.index(max(values))
    yield from (f"{name},{own.decimal(value, 11)}\n" for name, value in zip(names, values))
    yield f"total,{own.decimal(sum(values), 11)}\nmean,{own.decimal(own.rounded(mode, Fraction(sum(values), len(values))), 11)}\n"
    yield f"least,{names[least]},{own.decimal(values[least], 11)}\ngreatest,{names[greatest]},{own.decimal(values[greatest], 11)}\n"


def many_scenarios(bench):
    """60,000 scenarios in no order, in which a flag is true on one of some days or on none, over rates of which most are those of all."""
    number = 60_000
    head = "payoff 1;\namounts 2;\nparty A, B;\nasset E;\nnum F : 4 in 0.5000 .. 2.0000;\nnum R : 2 in -9.00 .. 9.00;\nflag G;\n"
    hit = "scale(round(floor, 2, (model(F, 3) * 33.33)), cut(3, pay(3, E, A, B)))"
    bench.put("set.code", f"{head}code c = loop model(G, 3) upto 4 then {hit} else scale(model(R, 0), cut(9, pay(9, E, B, A)));\n")
    factors = [1_000_000_000 - 1_234_567 * day for day in range(10)]
    bench.put("set.curve", "offset,factor\n" + "".join(f"{day},{own.decimal(factor, 9)}\n" for day, factor in enumerate(factors)))
    rate = lambda day: 5_000 + day * 7_919 % 15_001
    rows = [SET] + [f"*,F,{day},{own.decimal(rate(day), 4)}\n" for day in range(3, 8)]
    order = [k * 7_919 % number for k in range(number)]
    cents = lambda i: i * 31 % 1_801 - 900
    rows += [f"n{i},R,0,{own.decimal(cents(i), 2)}\n" for i in order]
    values = {}
    for i in range(number):
        day = i % 7
        rows += [f"n{i},G,{3 + on},{'true' if on == day else 'false'}\n" for on in range(min(day, 4) + 1)]
        paid = rate(3 + day) * 3_333 // 10_000 * factors[3 + day] if day < 5 else -cents(i) * factors[9]
        values[f"n{i}"] = paid
    names = [f"n{i}" for i in order]
    bench.put("set.csv", own.filled("".join(rows)))
    files, words = ("set.code", "set.csv", "set.curve"), ("--at", "0", "--from", "A", "--to", "B", "--asset", "E", "--mean")
    for mode in own.MODES:
        lines = scenario_lines(names, [values[name] for name in names], mode)
        bench.gives(f"60,000 scenarios, {mode}", 0, lines, "scenarios", *files, *words, mode)
    bench.put("set.csv", "".join(row for row in rows if not row.startswith(("n77,G,3,", "n78,G,3,"))))
    lacks = next(name for name in names if name in ("n77", "n78"))
    bench.gives("two of 60,000 scenarios lack a row", 8, f"fault missing G 3 in {lacks}\n", "scenarios", *files, *words, "floor")
    bench.put("set.csv", "".join(rows) + "n5,G,4,true\n")
    first = 1 + next(at for at, row in enumerate(rows) if row == "n5,G,4,false\n")
    text = f"fault row file 2 record {len(rows) + 1} conflict with {first}\n"
    bench.gives("one of 60,000 scenarios against itself", 7, text, "scenarios", *files, *words, "floor")


def many_nodes_in_scenarios(bench):
    """Code of 99,999 nodes in a hundred scenarios, and 10,000 scenarios over code of a thousand nodes."""
    head = "payoff 1;\namounts 2;\nparty A, B;\nasset E;\nnum F : 2 in 0.00 .. 9.99;\n"
    bench.put("set.curve", "offset,factor\n0,1\n")
    for leaves, number in ((25_000, 100), (250, 10_000)):
        tree = own.balanced([own.Made("", "", f"scale(model(F, {leaf % 50}), pay(0, E, A, B))", []) for leaf in range(leaves)]).plain
        bench.put("set.code", f"{head}code c = {tree};\n")
        cents = lambda i, day: (i * 13 + day * 7) % 1_000
        days = range(20)
        rows = [f"*,F,{day},{own.decimal(cents(0, day), 2)}\n" for day in range(20, 50)]
        rows += [f"s{i},F,{day},{own.decimal(cents(i, day), 2)}\n" for i in range(number) for day in days]
        bench.put("set.csv", SET + "".join(rows))
        common = sum(cents(0, day) for day in range(20, 50))
        values = [(common + sum(cents(i, day) for day in days)) * (leaves // 50) * 10 ** 9 for i in range(number)]
        lines = scenario_lines([f"s{i}" for i in range(number)], values, "half_even")
        words = "--at", "0", "--from", "A", "--to", "B", "--asset", "E", "--mean", "half_even"
        bench.gives(f"{number} scenarios over {leaves} payments", 0, lines, "scenarios", "set.code", "set.csv", "set.curve", *words)


def sets_cut_off(bench):
    """A table of scenarios that is cut off at each of its bytes: what is left has fewer scenarios, or a fault at its last record."""
    head = "payoff 1;\namounts 2;\nparty A, B;\nasset E;\nnum F : 2 in 0.50 .. 9.99;\n"
    bench.put("set.code", f"{head}code c = scale(model(F, 1), pay(0, E, A, B));\n")
    bench.put("set.curve", "offset,factor\n0,1\n")
    whole = SET + "*,F,0,1.25\nup,F,1,1.25\ndown,F,1,0.75\n"
    for length in range(len(whole) + 1):
        text = whole[:length]
        bench.put("set.csv", text)
        lines = text.splitlines()
        fields, at = (lines or [""])[-1].split(","), len(lines)
        if length < len(SET) - 1:
            answer = 7, "fault row file 2 record 1 shape\n"
        elif at > 1 and len(fields) < 4:
            answer = 7, f"fault row file 2 record {at} shape\n"
        elif at > 1 and (not fields[3] or fields[3].endswith(".")):
            answer = 7, f"fault row file 2 record {at} value\n"
        elif at > 1 and Fraction(fields[3]) < Fraction(1, 2):
            answer = 7, f"fault row file 2 record {at} bounds\n"
        elif at < 3:
            answer = 7, f"fault row file 2 record {at + 1} shape\n"
        else:
            values = [int(Fraction(line.split(",")[3]) * 10 ** 11) for line in lines[2:]]
            answer = 0, scenario_lines(["up", "down"][: len(values)], values, "floor")
        words = "--at", "0", "--from", "A", "--to", "B", "--asset", "E", "--mean", "floor"
        bench.gives(f"the first {length} bytes of a set", *answer, "scenarios", "set.code", "set.csv", "set.curve", *words)
