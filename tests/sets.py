"""Scenario sets in the second reading of the language: tables of scenarios with their faults, what code is worth in each of them, and
what `scenarios` prints (model.py has terms and values, rules.py the rules of acceptance)."""

import re
from datetime import date

import model
import rules
from model import MOST, Asked, World

NAME = re.compile(r"[A-Za-z_][A-Za-z0-9_]{0,63}")
RESERVED = set(
    "portfolio payoff amounts origin start party asset num flag in template contract code zero pay both scale after let if within then"
    " else true false obs neg not min max widen round div acc none add loop upto cut model half_even half_away floor ceil".split()
)
HEADER = ["scenario", "label", "day", "value"]
EACH = "*"


class BadRow(Exception):
    def __init__(self, record, kind):
        super().__init__(kind)
        self.record, self.kind = record, kind


def is_name(text):
    return NAME.fullmatch(text) is not None and text not in RESERVED


def records_of(data):
    """The records of a table, each a list of fields, as text of one character a byte."""
    text = data.decode("latin-1").removeprefix("\xef\xbb\xbf")
    records, fields, field, place = [], [], "", 0
    begun = False
    while place < len(text):
        mark = text[place]
        place += 1
        if mark in "\r\n":
            # A line without any byte is no record.
            if begun:
                records.append(fields + [field])
            fields, field, begun = [], "", False
        elif mark == ",":
            fields, field, begun = fields + [field], "", True
        elif mark == '"' and text[place - 2 : place - 1] in ("", ",", "\r", "\n") and field == "":
            begun = True
            while place < len(text):
                if text[place] != '"':
                    field += text[place]
                    place += 1
                elif text[place + 1 : place + 2] == '"':
                    field += '"'
                    place += 2
                else:
                    place += 1
                    break
            # What stands between a quoted field and the next comma belongs to it.
            while place < len(text) and text[place] not in ",\r\n":
                field += text[place]
                place += 1
        else:
            field, begun = field + mark, True
    return records + ([fields + [field]] if begun else [])


def day_of(decls, text):
    """The number of a day, or None."""
    if re.fullmatch(r"-?[0-9]{1,9}", text):
        day = int(text)
    elif re.fullmatch(r"[0-9]{4}-[0-9]{2}-[0-9]{2}", text) and decls.origin is not None:
        try:
            day = (date.fromisoformat(text) - decls.origin).days
        except ValueError:
            return None
    else:
        return None
    return day if abs(day) <= 3_000_000 else None


def value_of(label, text):
    """What a value says, in units of 10^-27 for a number, and whether it is within the bounds; None where it says nothing."""
    if label is None:
        return (text == "true", True) if text in ("true", "false") else None
    scale, low, high = label
    match = re.fullmatch(r"(-?)([0-9]+)(?:[.]([0-9]+))?", text)
    if match is None or len(match[3] or "") > scale:
        return None
    mantissa = int(match[1] + match[2] + (match[3] or "").ljust(scale, "0"))
    if abs(mantissa) > MOST:
        return None
    return mantissa * 10 ** (27 - scale), low <= mantissa <= high


def read_scenarios(decls, data):
    """The scenarios of a table, [(name, {place: value})]; raises BadRow at the first record that breaks a rule."""
    records = records_of(data)
    if records[:1] != [HEADER]:
        raise BadRow(1, "shape")
    rows, at = [], {}
    for number, record in enumerate(records[1:], 2):
        if len(record) != 4 or not (record[0] == EACH or is_name(record[0])):
            raise BadRow(number, "shape")
        scenario, label, day, text = record
        if label not in decls.label:
            raise BadRow(number, "label")
        on = day_of(decls, day)
        if on is None:
            raise BadRow(number, "day")
        known = value_of(decls.label[label], text)
        if known is None:
            raise BadRow(number, "value")
        if not known[1]:
            raise BadRow(number, "bounds")
        before = at.setdefault((label, on), [])
        for earlier, other, value in before:
            if value != known[0] and (scenario == other or EACH in (scenario, other)):
                raise BadRow(number, f"conflict with {earlier}")
        before.append((number, scenario, known[0]))
        rows.append((scenario, (label, on), known[0]))
    names = list(dict.fromkeys(scenario for scenario, _, _ in rows if scenario != EACH))
    if not names:
        raise BadRow(len(records) + 1, "shape")
    maps = {name: {} for name in [EACH] + names}
    for scenario, place, value in rows:
        maps[scenario][place] = value
    return [(name, {**maps[EACH], **maps[name]}) for name in names]


def in_scenario(asked, decls, fixed):
    return Asked(asked.now, asked.payer, asked.receiver, asked.asset, asked.curve, asked.setting, World(decls, fixed))


def worth_in(decls, code, asked):
    """The value of code in units of its last decimal, which is the ninth behind those of amounts."""
    whole, rest = divmod(model.worth(code, [], decls.start, asked), 10 ** (27 - decls.amounts))
    assert rest == 0, "a value of more decimals than values have"
    return whole


def lines_of(decls, names, values, mode):
    """What is printed of the values of scenarios."""
    text = lambda mantissa: model.decimal(mantissa, decls.amounts + 9)
    total, least, greatest = sum(values), values.index(min(values)), values.index(max(values))
    lines = [f"{name},{text(value)}\n" for name, value in zip(names, values)]
    lines.append(f"total,{text(total)}\n")
    lines.append(f"mean,{text(model.quotient(mode, total, len(values)))}\n")
    lines += [f"{word},{names[place]},{text(values[place])}\n" for word, place in (("least", least), ("greatest", greatest))]
    return "".join(lines)


def answer(decls, name, code, data, asked, mode):
    """The status and the text of `scenarios`, where the curve has no fault."""
    try:
        most = rules.check_code(decls, code, asked.setting)
    except rules.Refused as refusal:
        return 1, f"fault refused {name} {refusal.rule} node {refusal.node}\n"
    try:
        found = read_scenarios(decls, data)
    except BadRow as fault:
        return 7, f"fault row file 2 record {fault.record} {fault.kind}\n"
    if len(found) * most > MOST:
        return 12, f"fault scenarios {len(found)}\n"
    values = []
    for scenario, fixed in found:
        own = in_scenario(asked, decls, fixed)
        place = own.world.first_missing(model.code_reads(code, [], [], decls.start, own))
        if place is not None:
            return 8, f"fault missing {place[0]} {place[1]} in {scenario}\n"
        values.append(worth_in(decls, code, own))
    return 0, lines_of(decls, [scenario for scenario, _ in found], values, mode)
