"""The part of tests/random that makes sets of scenarios, and compares what `scenarios` prints of them with that of sets.py."""

import __main__ as own
import model
import rules
import sets
from model import Term, World

SCENARIOS = ("up", "down", "base", "Y2008", "_x", "total", "mean", "scenario", "EUR", "s" * 64)


def order_of(decls, place):
    """Where a place comes among others: by its label, as they are declared, and then by its day."""
    return list(decls.label).index(place[0]), place[1]


def some_rows(dice, decls, code, asked, world):
    """Rows of a set, [(scenario, place, value)], in which there is all that the code reads, and some more."""
    names = [dice.one(SCENARIOS) for _ in range(dice.between(1, 7))]
    names = list(dict.fromkeys(names))
    places = dict.fromkeys(model.code_reads(code, [], [], decls.start, asked))
    places.update(dict.fromkeys(dice.one(list(world)) for _ in range(dice.below(4) if world else 0)))
    rows = []
    for place in places:
        label = decls.label[place[0]]
        if dice.chance(40):
            rows.append((sets.EACH, place, world.get(place, own.some_value(dice, label))))
        else:
            rows += [(name, place, own.some_value(dice, label)) for name in names]
    for name in names:
        # A value decides what is read next, so rows are put in until nothing is missing.
        while True:
            fixed = {place: value for scenario, place, value in rows if scenario in (name, sets.EACH)}
            seen = sets.in_scenario(asked, decls, fixed)
            place = seen.world.first_missing(model.code_reads(code, [], [], decls.start, seen))
            if place is None:
                break
            rows.append((name, place, own.some_value(dice, decls.label[place[0]])))
        if not any(scenario == name for scenario, _, _ in rows):
            rows.append((name, *dice.one(list(fixed.items()))) if fixed else (name, *dice.one(list(world.items()))))
    # Half of the sets rise: the rows of each scenario are in the order of places.
    rises = dice.chance(50)
    if not rises or dice.chance(10):
        # Some rows are there twice, and some of those that hold in each scenario are said again of one.
        rows += [dice.one(rows) for _ in range(dice.below(3))]
        rows += [(dice.one(names), place, value) for scenario, place, value in rows if scenario == sets.EACH and dice.chance(10)]
    if dice.chance(20):
        rows.pop(dice.below(len(rows)))
    shuffled = [rows.pop(dice.below(len(rows))) for _ in range(len(rows))]
    return sorted(shuffled, key=lambda row: order_of(decls, row[1])) if rises else shuffled


def spoiled(dice, decls, record):
    """A record that says something else, or nothing."""
    field = dice.below(5)
    bad = list(record)
    label = decls.label[record[1]]
    if field == 4:
        return dice.one((bad[:3], bad + [""], bad[1:], [bad[0]]))
    if field == 3 and label is not None and dice.chance(60):
        scale, low, high = label
        bad[3] = model.decimal(dice.one((low - 1, high + 1, 10 ** 37, 10 ** 37 + 1, 10 ** 40)), scale)
    elif field == 0 and dice.chance(50):
        # The rows of a scenario are said of all of them, or those of all of one.
        bad[0] = "other" if bad[0] == sets.EACH else sets.EACH
    else:
        bad[field] = dice.one(
            (
                ("zero", "**", "", "a b", "9x", "-", "n" * 65, "x*"),
                ("GX", "", "*", record[1] + " ", "scenario"),
                ("", "-", "3000001", "-3000001", "1.0", "1234567890", "2026-02-30", "1999-12-31", "0000-01-01", "+1"),
                ("", "1.", ".5", "+1", "yes", "TRUE", "1e3", "0." + "0" * 19, "--1"),
            )[field]
        )
    return bad


def some_set(dice, decls, rows):
    """The text of a table of scenarios, which may have a fault."""
    records = [[scenario, *own.row_fields(dice, decls, place, value)] for scenario, place, value in rows]
    if records and dice.chance(40):
        at = dice.below(len(records))
        if dice.chance(50):
            records[at] = spoiled(dice, decls, records[at])
        else:
            # Something else is said of a place: in the same scenario, in another one, or in all.
            place, label = rows[at][1], decls.label[rows[at][1][0]]
            scenario = dice.one((records[at][0], dice.one(SCENARIOS), sets.EACH))
            records.insert(dice.below(len(records) + 1), [scenario, *own.row_fields(dice, decls, place, own.some_value(dice, label))])
    if dice.chance(3):
        records = [record for record in records if record[0] == sets.EACH]
    others = sets.HEADER[1:], sets.HEADER[:3], sets.HEADER + [""], ["Scenario"] + sets.HEADER[1:]
    header = dice.one(others) if dice.chance(2) else sets.HEADER
    end = dice.one(("\n", "\n", "\r\n", "\r", "\n\n"))
    quoted = lambda field: f'"{field}"' if dice.chance(5) else field
    lines = [",".join(map(quoted, record)) for record in [header] + records]
    return ("\ufeff" if dice.chance(5) else "") + end.join(lines) + (end if dice.chance(80) else "")


def try_set(dice, bench, decls, name, code, c, cut, world):
    """Code in a set of scenarios: it has the values of the second reading. They are those of what the contract pays, if there is one
    and it is accepted."""
    asked, words = own.some_question(dice, decls, world, code)
    mode = dice.one(model.MODES)
    bench.put("set.curve", own.curve_text(asked.curve))
    try:
        rules.check_code(decls, code, asked.setting)
        rows = some_rows(dice, decls, code, asked, world)
    except rules.Refused:
        rows = []
    table = some_set(dice, decls, rows)
    bench.put("set.csv", table)
    answer = sets.answer(decls, name, code, table.encode(), asked, mode)
    if answer[0] == 0 and c is not None:
        contract = model.instance(c, asked.setting)
        if rules.check_line(decls, name, contract)[1]:
            found = sets.read_scenarios(decls, table.encode())
            values = [own.present_worth(decls, contract, sets.in_scenario(asked, decls, fixed), cut) for _, fixed in found]
            answer = 0, sets.lines_of(decls, [scenario for scenario, _ in found], values, mode)
    bench.gives(*answer, "scenarios", "set.code", "set.csv", "set.curve", *words, "--mean", mode)


def try_scenarios(bench, decls, named, contracts, world, maker):
    dice = own.Dice(bench.seed + 1_000_000)
    paying = [one for one, (_, c) in zip(named, contracts) if model.payments(c, [], World(decls, world), decls.start)]
    name, c = dice.one(paying or named)
    cut = dice.chance(60)
    # Code that is worth so much that a few scenarios are too many.
    much = Term("lit", (10 ** (27 - decls.amounts) // dice.between(1, 7) + dice.below(2), 0))
    codes = (
        (name, model.compiled(c, decls, cut), c),
        ("mine", maker.code(dice.between(1, 5), [], decls.amounts), None),
        ("much", Term("scale", None, [much, Term("payon", ((0, ()), decls.assets[0], *decls.parties[:2]))]), None),
    )
    for title, code, of in codes:
        text = model.term_text(code, spell=model.as_written)
        bench.put("set.code", model.decls_text(decls, "payoff") + f"code {title} = {text};\n")
        for _ in range(1 if title == "much" else 2):
            try_set(dice, bench, decls, title, code, of, cut, world)
