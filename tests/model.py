"""The contract language once more, in Python and from its description alone, so that a built program can be compared with it: its
terms and texts, and what they mean. The rules of acceptance are in rules.py.

It shares nothing with the program. Numbers are whole numbers of 10^-27, so no evaluation knows a scale; scales belong to the rules
of acceptance alone. A term is a `Term`: an operator, what is written in it beside its parts, and its parts in written order.
"""

import re
from datetime import timedelta

ONE = 10 ** 27
MOST = 10 ** 37
MODES = ("half_even", "half_away", "floor", "ceil")
ARITHMETIC = ("+", "-", "*", "min", "max")
COMPARISONS = ("<", "<=", ">", ">=", "=", "!=")
EXPRESSIONS = {"lit", "yes", "var", "obs", "model", "neg", "not", "&", "|", "if", "widen", "round", "div", "acc"}
EXPRESSIONS.update(ARITHMETIC, COMPARISONS)


class Term:
    """op, what stands in it, its parts, the name that it binds, and the number of its node."""

    __slots__ = ("op", "of", "parts", "name", "node")

    def __init__(self, op, of, parts=(), name=None):
        self.op, self.of, self.parts, self.name, self.node = op, of, tuple(parts), name, None

    def with_parts(self, parts, of=None):
        return Term(self.op, self.of if of is None else of, parts, self.name)


def number(term, node=0):
    """Numbers the nodes in the order of their first bytes; answers the first number that is left."""
    term.node = node
    node += 1
    for part in term.parts:
        node = number(part, node)
    return node


class Decls:
    """What a text of a version declares: assets are (name, decimals); labels are (name, (scale, low, high)) or (name, None) for a flag;
    templates are (name, days)."""

    def __init__(self, version, amounts, origin, start, parties, assets, labels, templates):
        self.version, self.amounts, self.origin, self.start = version, amounts, origin, start
        self.parties, self.labels, self.templates = parties, labels, templates
        self.assets = [name for name, _ in assets]
        self.decimals = dict(assets)
        self.label = dict(labels)
        self.days = dict(templates)


# ---- Decimals


def decimal(mant, scale):
    digits = str(abs(mant)).rjust(scale + 1, "0")
    sign = "-" if mant < 0 else ""
    return sign + (digits if scale == 0 else digits[:-scale] + "." + digits[-scale:])


def quotient(mode, top, below):
    """The whole number that the mode picks for top over below; 0 where below is 0."""
    if below == 0:
        return 0
    if below < 0:
        top, below = -top, -below
    down, rest = divmod(top, below)
    if rest == 0 or mode == "floor":
        return down
    if mode == "ceil" or 2 * rest > below:
        return down + 1
    if 2 * rest < below:
        return down
    if mode == "half_even":
        return down + down % 2
    return down + 1 if top > 0 else down


# ---- Texts


def items_of(days):
    """A number of days is a number, the name of a template, or the items of a sum, as they are written."""
    return days if isinstance(days, tuple) else (days,)


def days_text(days):
    return " + ".join(str(item) for item in items_of(days))


def days_number(days, setting):
    return sum(setting.get(item, item) for item in items_of(days))


def canonical_days(decls, days):
    """The sum of the numbers, if it is not 0 or stands alone, and then the names in declared order."""
    whole = sum(item for item in items_of(days) if isinstance(item, int))
    names = sorted((item for item in items_of(days) if isinstance(item, str)), key=list(decls.days).index)
    return tuple(([whole] if whole or not names else []) + names)


def canonical(decls, c):
    """The contract with each number of days as it is printed."""
    of = canonical_days(decls, c.of) if c.op in ("after", "within") else c.of
    return Term(c.op, of, [canonical(decls, part) for part in c.parts], c.name)


def date_text(code_date):
    return " + ".join([str(code_date[0])] + list(code_date[1]))


def expr_text(e, names, spell):
    """The canonical spelling, with the names that `spell` gives to what is bound."""
    op, of = e.op, e.of
    if op == "lit":
        return decimal(*of)
    if op == "yes":
        return "true" if of else "false"
    if op == "var":
        return names[of]
    if op == "obs":
        return f"obs({of[0]}, {of[1]})"
    if op == "model":
        return f"model({of[0]}, {date_text(of[1])})"
    if op == "acc":
        name = spell(e, names)
        body = expr_text(e.parts[0], [name] + names, spell)
        return f"acc({name}, {body}, {of}, {expr_text(e.parts[1], names, spell)})"
    parts = [expr_text(part, names, spell) for part in e.parts]
    if op in ("neg", "not", "min", "max", "if"):
        return f"{op}({', '.join(parts)})"
    if op == "widen":
        return f"widen({of}, {parts[0]})"
    if op in ("round", "div"):
        return f"{op}({of[0]}, {of[1]}, {', '.join(parts)})"
    return f"({parts[0]} {op} {parts[1]})"


def term_text(c, names=(), spell=None):
    """The text of a contract or of an amount of code: canonical, or with the names that the terms hold."""
    spell = spell or (lambda term, names: f"v{len(names)}")
    names = list(names)
    op, of = c.op, c.of
    if op in ("zero", "none"):
        return op
    if op == "pay":
        return f"pay({', '.join(of)})"
    if op == "payon":
        return f"pay({date_text(of[0])}, {', '.join(of[1:])})"
    if op in ("both", "add"):
        return f"{op}({term_text(c.parts[0], names, spell)}, {term_text(c.parts[1], names, spell)})"
    if op == "scale":
        return f"scale({expr_text(c.parts[0], names, spell)}, {term_text(c.parts[1], names, spell)})"
    if op == "after":
        return f"after({days_text(of)}, {term_text(c.parts[0], names, spell)})"
    if op == "cut":
        return f"cut({date_text(of)}, {term_text(c.parts[0], names, spell)})"
    if op == "let":
        name = spell(c, names)
        bound = expr_text(c.parts[0], names, spell)
        return f"let {name} = {bound} in {term_text(c.parts[1], [name] + names, spell)}"
    test = expr_text(c.parts[0], names, spell)
    hit, miss = (term_text(part, names, spell) for part in c.parts[1:])
    if op == "loop":
        return f"loop {test} upto {date_text(of)} then {hit} else {miss}"
    return f"if {test} within {days_text(of)} then {hit} else {miss}"


def as_written(term, names):
    return term.name


def asset_text(decls, name, version, bare):
    """An asset with its decimals, which may be left out if they are those of amounts."""
    decimals = decls.decimals[name]
    return name if version == 1 or bare and decimals == decls.amounts else f"{name} : {decimals}"


def decls_text(decls, word="portfolio", start=None, version=None, bare=False):
    """The canonical lines of the declarations. Code files are of version 1."""
    version = 1 if word == "payoff" else version or decls.version
    lines = [f"{word} {version};", f"amounts {decls.amounts};"]
    if decls.origin is not None:
        lines.append(f"origin {decls.origin.isoformat()};")
    lines.append(f"start {decls.start if start is None else start};")
    if decls.parties:
        lines.append(f"party {', '.join(decls.parties)};")
    if decls.assets:
        lines.append(f"asset {', '.join(asset_text(decls, name, version, bare) for name in decls.assets)};")
    for name, label in decls.labels:
        if label is None:
            lines.append(f"flag {name};")
        else:
            scale, low, high = label
            lines.append(f"num {name} : {scale} in {decimal(low, scale)} .. {decimal(high, scale)};")
    for name, days in decls.templates:
        lines.append(f"template {name} = {days};")
    return "".join(line + "\n" for line in lines)


def instance(c, days):
    """The contract with numbers for the names of templates."""
    of = days_number(c.of, days) if c.op in ("after", "within") else c.of
    return Term(c.op, of, [instance(part, days) for part in c.parts], c.name)


def migrated_text(decls, contracts):
    """The canonical text in version 2."""
    lines = [f"contract {name} = {term_text(canonical(decls, c))};\n" for name, c in contracts]
    return decls_text(decls, version=2) + "".join(lines)


# ---- Meaning


class World:
    """What is fixed, by label and day: a number in units of 10^-27, or a truth value. What is not fixed is the least there is."""

    def __init__(self, decls, fixed):
        self.fixed = fixed
        self.least = {name: False if label is None else label[1] * 10 ** (27 - label[0]) for name, label in decls.labels}

    def at(self, place):
        return self.fixed.get(place, self.least[place[0]])

    def first_missing(self, places):
        return next((place for place in places if place not in self.fixed), None)


def value(e, names, world, day, setting=None, places=None, reads=None):
    """The value on a day. Where `reads` is a list, what is read is put behind it; then `places` has that of each bound name."""
    op, of = e.op, e.of
    again = lambda part, on=day: value(part, names, world, on, setting, places, reads)
    if op == "lit":
        return of[0] * 10 ** (27 - of[1])
    if op == "yes":
        return of
    if op == "var":
        if reads is not None:
            reads.extend(places[of])
        return names[of]
    if op in ("obs", "model"):
        place = of[0], day + (of[1] if op == "obs" else date_of(of[1], setting))
        if reads is not None:
            reads.append(place)
        return world.at(place)
    if op == "acc":
        so_far = again(e.parts[1], day - of)
        for on in range(day - of + 1, day + 1):
            so_far = value(e.parts[0], [so_far] + names, world, on, setting, [[]] + (places or []), reads)
        return so_far
    if op == "if":
        return again(e.parts[1] if again(e.parts[0]) else e.parts[2])
    one = again(e.parts[0])
    if op == "neg":
        return -one
    if op == "not":
        return not one
    if op == "&":
        return one and again(e.parts[1])
    if op == "|":
        return one or again(e.parts[1])
    if op == "widen":
        return one
    if op == "round":
        mode, scale = of
        return quotient(mode, one, 10 ** (27 - scale)) * 10 ** (27 - scale)
    other = again(e.parts[1])
    if op == "div":
        mode, scale = of
        return quotient(mode, one * 10 ** scale, other) * 10 ** (27 - scale)
    if op == "*":
        return exactly(one * other)
    return {
        "+": lambda: one + other,
        "-": lambda: one - other,
        "min": lambda: min(one, other),
        "max": lambda: max(one, other),
        "<": lambda: one < other,
        "<=": lambda: one <= other,
        ">": lambda: one > other,
        ">=": lambda: one >= other,
        "=": lambda: one == other,
        "!=": lambda: one != other,
    }[op]()


def exactly(product):
    """A product of two numbers of 10^-27, which has no more decimals in what is accepted."""
    whole, rest = divmod(product, ONE)
    assert rest == 0, "a product of more than 27 decimals"
    return whole


def expr_reads(e, names, places, world, day, setting=None):
    reads = []
    value(e, names, world, day, setting, places, reads)
    return reads


def first_day(e, names, world, day, days, setting=None):
    """How many days on the test is true for the first time; None where it is on none of these days."""
    return next((later for later in range(days + 1) if value(e, names, world, day + later, setting)), None)


def payments(c, names, world, day):
    """All that a contract pays that stands on this day: (day, asset, from, to, amount)."""
    if c.op == "zero":
        return []
    if c.op == "pay":
        return [(day, *c.of, ONE)]
    if c.op == "both":
        return payments(c.parts[0], names, world, day) + payments(c.parts[1], names, world, day)
    if c.op == "scale":
        factor = value(c.parts[0], names, world, day)
        return [(*line, exactly(factor * amount)) for *line, amount in payments(c.parts[1], names, world, day)]
    if c.op == "after":
        return payments(c.parts[0], names, world, day + c.of)
    if c.op == "let":
        return payments(c.parts[1], [value(c.parts[0], names, world, day)] + names, world, day)
    first = first_day(c.parts[0], names, world, day, c.of)
    if first is None:
        return payments(c.parts[2], names, world, day + c.of)
    return payments(c.parts[1], names, world, day + first)


def table(decls, paid):
    """The rows of what is paid, in declared order: {(day, asset, lower party, higher party): amount, below 0 where it goes back}."""
    sums = {}
    for day, asset, payer, receiver, amount in paid:
        one, other = decls.parties.index(payer), decls.parties.index(receiver)
        if one != other:
            key = day, decls.assets.index(asset), min(one, other), max(one, other)
            sums[key] = sums.get(key, 0) + (amount if one < other else -amount)
    return {key: sums[key] for key in sorted(sums) if sums[key] != 0}


def day_text(decls, day):
    return str(day) if decls.origin is None else (decls.origin + timedelta(day)).isoformat()


def flow_lines(decls, name, rows):
    lines = []
    for (day, asset, one, other), amount in rows.items():
        if amount < 0:
            one, other = other, one
        decimals = decls.decimals[decls.assets[asset]]
        whole, rest = divmod(abs(amount), 10 ** (27 - decimals))
        assert rest == 0, "an amount of more decimals than its asset has"
        words = name, day_text(decls, day), decls.parties[one], decls.parties[other], decls.assets[asset]
        lines.append(",".join(words) + f",{decimal(whole, decimals)}\n")
    return "".join(lines)


def pays_within(c, names, world, day, low, high):
    """Whether a payment between two parties stands on the path, from so many days on to so many."""
    if c.op == "zero":
        return False
    if c.op == "pay":
        return c.of[1] != c.of[2] and low <= 0 <= high
    if c.op == "both":
        return any(pays_within(part, names, world, day, low, high) for part in c.parts)
    if c.op == "scale":
        return pays_within(c.parts[1], names, world, day, low, high)
    if c.op == "after":
        return pays_within(c.parts[0], names, world, day + c.of, low - c.of, high - c.of)
    if c.op == "let":
        return pays_within(c.parts[1], [value(c.parts[0], names, world, day)] + names, world, day, low, high)
    first = first_day(c.parts[0], names, world, day, c.of)
    days, branch = (c.of, c.parts[2]) if first is None else (first, c.parts[1])
    return pays_within(branch, names, world, day + days, low - days, high - days)


def reads(c, names, places, world, day, low, high):
    """What has to be fixed for what a contract pays from so many days on to so many, in order."""
    if high < 0 or c.op in ("zero", "pay"):
        return []
    if c.op == "both":
        return [place for part in c.parts for place in reads(part, names, places, world, day, low, high)]
    if c.op == "scale":
        found = reads(c.parts[1], names, places, world, day, low, high)
        if pays_within(c.parts[1], names, world, day, low, high):
            found += expr_reads(c.parts[0], names, places, world, day)
        return found
    if c.op == "after":
        return reads(c.parts[0], names, places, world, day + c.of, low - c.of, high - c.of)
    if c.op == "let":
        bound = value(c.parts[0], names, world, day)
        own = expr_reads(c.parts[0], names, places, world, day)
        return reads(c.parts[1], [bound] + names, [own] + places, world, day, low, high)
    first = first_day(c.parts[0], names, world, day, c.of)
    days, branch = (c.of, c.parts[2]) if first is None else (first, c.parts[1])
    found = []
    for later in range(min(days, high) + 1):
        found += expr_reads(c.parts[0], names, places, world, day + later)
    if days <= high:
        found += reads(branch, names, places, world, day + days, low - days, high - days)
    return found


# ---- Plans of payments at regular days


class Leg:
    """A size is (mantissa, scale), or (mode, scale, label, lag, (mantissa, scale)); the days are the first, those between, and how many."""

    def __init__(self, size, asset, payer, receiver, first, every, times):
        self.size, self.asset, self.payer, self.receiver = size, asset, payer, receiver
        self.first, self.every, self.times = first, every, times

    def days(self):
        return [self.first + index * self.every for index in range(self.times)]

    def expr(self):
        if len(self.size) == 2:
            return Term("lit", self.size)
        mode, scale, label, lag, notional = self.size
        return Term("round", (mode, scale), [Term("*", None, [Term("obs", (label, -lag)), Term("lit", notional)])])

    def payment(self):
        return Term("scale", None, [self.expr(), Term("pay", (self.asset, self.payer, self.receiver))])

    def text(self):
        if len(self.size) == 2:
            size = decimal(*self.size)
        else:
            mode, scale, label, lag, notional = self.size
            size = f"round( {mode} , {scale} , {label} , {lag} , {decimal(*notional)} )"
        route = f"of {self.asset} from {self.payer} to {self.receiver}"
        return f"{size} {route} first {self.first} every {self.every} times {self.times}"


class Plan:
    """A leg, two legs against each other, or a leg that ends with a cover (mantissa, scale) on the first day on which a flag is true."""

    def __init__(self, legs, flag=None, cover=None):
        self.legs, self.flag, self.cover = legs, flag, cover

    def text(self, name):
        legs = " against ".join(leg.text() for leg in self.legs)
        if self.flag is None:
            return f"{'leg' if len(self.legs) == 1 else 'swap'} {name} = {legs} ;"
        return f"guarded {name} = {legs} until {self.flag} covers {decimal(*self.cover)} ;"

    def payments(self, world, start):
        """All that the plan pays: (day, asset, from, to, amount)."""
        paid = [
            (start + day, leg.asset, leg.payer, leg.receiver, value(leg.expr(), [], world, start + day))
            for leg in self.legs
            for day in leg.days()
        ]
        if self.flag is None:
            return paid
        leg = self.legs[0]
        raised = next((day for day in range(leg.days()[-1] + 1) if world.at((self.flag, start + day))), None)
        if raised is None:
            return paid
        cover = start + raised, leg.asset, leg.receiver, leg.payer, value(Term("lit", self.cover), [], world, start)
        return [line for line in paid if line[0] < start + raised] + [cover]

    def contract(self):
        """The contract that the plan is written for."""
        if self.flag is None:
            legs = [balanced([Term("after", day, [leg.payment()]) for day in leg.days()]) for leg in self.legs]
            return balanced(legs)
        leg, rest = self.legs[0], None
        for index in reversed(range(leg.times)):
            cover = Term("scale", None, [Term("lit", self.cover), Term("pay", (leg.asset, leg.receiver, leg.payer))])
            miss = leg.payment() if rest is None else Term("both", None, [leg.payment(), rest])
            rest = Term("within", leg.every if index else leg.first, [Term("obs", (self.flag, 0)), cover, miss])
        return rest


def balanced(contracts):
    """All of them, of which the first half has the odd one."""
    if len(contracts) == 1:
        return contracts[0]
    half = (len(contracts) + 1) // 2
    return Term("both", None, [balanced(contracts[:half]), balanced(contracts[half:])])


# ---- What is left of a contract


class Reader:
    """Reads a contract whose days are numbers, as `advance` prints it."""

    def __init__(self, text):
        self.tokens = re.findall(r"[A-Za-z_][A-Za-z_0-9]*|-?[0-9]+(?:\.[0-9]+)?|[<>!]=|\S", text)
        self.place = 0

    def take(self, *wanted):
        token = self.tokens[self.place]
        if wanted and token not in wanted:
            raise ValueError(f"{token} in place of {wanted}")
        self.place += 1
        return token

    def between(self, *readers):
        """What stands between parentheses, with commas between."""
        self.take("(")
        found = []
        for index, reader in enumerate(readers):
            if index:
                self.take(",")
            found.append(reader())
        self.take(")")
        return found

    def whole(self):
        return int(self.take())

    def contract(self, names):
        inner = lambda: self.contract(names)
        expr = lambda: self.expr(names)
        op = self.take("zero", "pay", "both", "scale", "after", "let", "if")
        if op == "zero":
            return Term(op, None)
        if op == "pay":
            return Term(op, tuple(self.between(self.take, self.take, self.take)))
        if op == "both":
            return Term(op, None, self.between(inner, inner))
        if op == "scale":
            return Term(op, None, self.between(expr, inner))
        if op == "after":
            days, body = self.between(self.whole, inner)
            return Term(op, days, [body])
        if op == "let":
            name = self.take()
            self.take("=")
            bound = expr()
            self.take("in")
            return Term(op, None, [bound, self.contract([name] + names)], name)
        test = expr()
        self.take("within")
        days = self.whole()
        self.take("then")
        hit = inner()
        self.take("else")
        return Term("within", days, [test, hit, inner()])

    def expr(self, names):
        inner = lambda: self.expr(names)
        token = self.tokens[self.place]
        if token == "(":
            self.take()
            one, op = inner(), self.take()
            parts = [one, inner()]
            self.take(")")
            return Term(op, None, parts)
        self.take()
        if token in ("true", "false"):
            return Term("yes", token == "true")
        if re.match("-?[0-9]", token):
            whole, _, behind = token.partition(".")
            return Term("lit", (int(whole + behind), len(behind)))
        if token == "obs":
            return Term(token, tuple(self.between(self.take, self.whole)))
        if token in ("neg", "not"):
            return Term(token, None, self.between(inner))
        if token in ("min", "max"):
            return Term(token, None, self.between(inner, inner))
        if token == "if":
            return Term(token, None, self.between(inner, inner, inner))
        if token == "widen":
            scale, part = self.between(self.whole, inner)
            return Term(token, scale, [part])
        if token in ("round", "div"):
            mode, scale, *parts = self.between(self.take, self.whole, *[inner] * (1 if token == "round" else 2))
            return Term(token, (mode, scale), parts)
        if token == "acc":
            self.take("(")
            name = self.take()
            self.take(",")
            body = self.expr([name] + names)
            self.take(",")
            days = self.whole()
            self.take(",")
            first = inner()
            self.take(")")
            return Term(token, days, [body, first], name)
        return Term("var", names.index(token))


def contract_of(text):
    reader = Reader(text)
    c = reader.contract([])
    if reader.place != len(reader.tokens):
        raise ValueError("words behind a contract")
    return c


def uses(term, back):
    """Whether a term uses the name that is bound so many binders out."""
    if term.op == "var":
        return term.of == back
    binds = {"acc": 0, "let": 1}.get(term.op)
    return any(uses(part, back + (index == binds)) for index, part in enumerate(term.parts))


def is_open(term, depth=0):
    """Whether a term uses a name that is bound outside it."""
    if term.op == "var":
        return term.of >= depth
    binds = {"acc": 0, "let": 1}.get(term.op)
    return any(is_open(part, depth + (index == binds)) for index, part in enumerate(term.parts))


def redex(decls, term, fixed, day):
    """What reduces in a contract that stands on this day: the part, or None. The day of a part that may stand on several is None."""
    op, parts = term.op, term.parts
    literal = lambda e: e.op in ("lit", "yes")
    zero = lambda c: c.op == "zero"
    world = World(decls, fixed)
    reduces = (
        op == "both" and (zero(parts[0]) or zero(parts[1]))
        or op == "scale" and (zero(parts[1]) or parts[0].op == "lit" and parts[0].of[0] == 0)
        or op == "after" and (term.of == 0 or parts[0].op in ("after", "zero"))
        or op == "let" and (literal(parts[0]) or not uses(parts[1], 0))
        or op == "within" and (literal(parts[0]) or zero(parts[1]) and zero(parts[2]))
        or op in ("&", "|", "if") and literal(parts[0])
        or op in ("neg", "not", "widen", "round", "div") + ARITHMETIC + COMPARISONS and all(literal(part) for part in parts)
        or op == "obs" and day is not None and (term.of[0], day + term.of[1]) in fixed
        or op == "acc" and term.of == 0
        or op == "acc" and day is not None and not is_open(term)
        and world.first_missing(expr_reads(term, [], [], world, day)) is None
    )
    if reduces:
        return term_text(term) if op not in EXPRESSIONS else op
    days = [day] * len(parts)
    if day is not None and op == "after":
        days = [day + term.of]
    elif day is not None and op == "acc":
        days = [None, day - term.of]
    elif op == "within":
        days = [None, None, None if day is None else day + term.of]
    elif op == "acc":
        days = [None, None]
    found = (redex(decls, part, fixed, on) for part, on in zip(parts, days))
    return next((one for one in found if one is not None), None)


# ---- Payoff code


def date_of(code_date, setting):
    return code_date[0] + sum(setting[name] for name in code_date[1])


def later(decls, code_date, days):
    """A date so many days later, its templates in declared order."""
    number_of, names = code_date
    order = list(decls.days)
    for item in items_of(days):
        if isinstance(item, int):
            number_of += item
        else:
            names = tuple(sorted(names + (item,), key=order.index))
    return number_of, names


def compiled_expr(e, decls, when):
    if e.op == "obs":
        return Term("model", (e.of[0], later(decls, when, e.of[1])))
    return e.with_parts([compiled_expr(part, decls, when) for part in e.parts])


def compiled(c, decls, cut, when=(0, ())):
    """The payoff code of a contract, with each payment cut once it is past, or plain."""
    if c.op == "zero":
        return Term("none", None)
    if c.op == "pay":
        pay = Term("payon", (when,) + c.of)
        return Term("cut", when, [pay]) if cut else pay
    if c.op == "both":
        return Term("add", None, [compiled(part, decls, cut, when) for part in c.parts])
    if c.op == "after":
        return compiled(c.parts[0], decls, cut, later(decls, when, c.of))
    if c.op in ("scale", "let"):
        return c.with_parts([compiled_expr(c.parts[0], decls, when), compiled(c.parts[1], decls, cut, when)])
    behind = later(decls, when, c.of)
    upto = later(decls, (0, ()), c.of)
    test = compiled_expr(c.parts[0], decls, when)
    return Term("loop", upto, [test, compiled(c.parts[1], decls, cut, when), compiled(c.parts[2], decls, cut, behind)])


def factor_at(curve, offset):
    """The factor, in units of 10^-9, of the greatest offset that is not above this one."""
    if offset < 0:
        return 10 ** 9
    return [factor for row, factor in curve if row <= offset][-1]


class Asked:
    """What a value is asked for: the day, the pair, the asset, the curve, the templates' numbers and what is fixed."""

    def __init__(self, now, payer, receiver, asset, curve, setting, world):
        self.now, self.payer, self.receiver, self.asset = now, payer, receiver, asset
        self.curve, self.setting, self.world = curve, setting, world


def worth(code, names, base, asked):
    """The value of code, in units of 10^-36."""
    again = lambda part: worth(part, names, base, asked)
    if code.op == "none":
        return 0
    if code.op == "payon":
        when, asset, payer, receiver = code.of
        if asset != asked.asset or payer == receiver or {payer, receiver} != {asked.payer, asked.receiver}:
            return 0
        sign = 1 if payer == asked.payer else -1
        return sign * factor_at(asked.curve, base + date_of(when, asked.setting) - asked.now) * ONE
    if code.op == "add":
        return again(code.parts[0]) + again(code.parts[1])
    if code.op == "cut":
        return again(code.parts[0]) if base + date_of(code.of, asked.setting) >= asked.now else 0
    number_of = lambda e: value(e, names, asked.world, base, asked.setting)
    if code.op == "scale":
        return exactly(number_of(code.parts[0]) * again(code.parts[1]))
    if code.op == "let":
        return worth(code.parts[1], [number_of(code.parts[0])] + names, base, asked)
    first = first_day(code.parts[0], names, asked.world, base, date_of(code.of, asked.setting), asked.setting)
    if first is None:
        return again(code.parts[2])
    return worth(code.parts[1], names, base + first, asked)


def reaches(code, names, base, asked):
    """Whether a payment of the chosen pair and asset is reached and not cut."""
    if code.op == "none":
        return False
    if code.op == "payon":
        _, asset, payer, receiver = code.of
        return asset == asked.asset and payer != receiver and {payer, receiver} == {asked.payer, asked.receiver}
    if code.op == "cut":
        return base + date_of(code.of, asked.setting) >= asked.now and reaches(code.parts[0], names, base, asked)
    if code.op == "scale":
        return reaches(code.parts[1], names, base, asked)
    if code.op == "add":
        return any(reaches(part, names, base, asked) for part in code.parts)
    if code.op == "let":
        bound = value(code.parts[0], names, asked.world, base, asked.setting)
        return reaches(code.parts[1], [bound] + names, base, asked)
    first = first_day(code.parts[0], names, asked.world, base, date_of(code.of, asked.setting), asked.setting)
    if first is None:
        return reaches(code.parts[2], names, base, asked)
    return reaches(code.parts[1], names, base + first, asked)


def code_reads(code, names, places, base, asked):
    """What has to be fixed for the value of code, in order."""
    own = lambda e, on: expr_reads(e, names, places, asked.world, on, asked.setting)
    if code.op in ("none", "payon"):
        return []
    if code.op == "add":
        return [place for part in code.parts for place in code_reads(part, names, places, base, asked)]
    if code.op == "cut":
        past = base + date_of(code.of, asked.setting) < asked.now
        return [] if past else code_reads(code.parts[0], names, places, base, asked)
    if code.op == "scale":
        found = code_reads(code.parts[1], names, places, base, asked)
        if reaches(code.parts[1], names, base, asked):
            found += own(code.parts[0], base)
        return found
    if code.op == "let":
        bound = value(code.parts[0], names, asked.world, base, asked.setting)
        return code_reads(code.parts[1], [bound] + names, [own(code.parts[0], base)] + places, base, asked)
    days = date_of(code.of, asked.setting)
    first = first_day(code.parts[0], names, asked.world, base, days, asked.setting)
    found = []
    for on in range((days if first is None else first) + 1):
        found += own(code.parts[0], base + on)
    if first is None:
        return found + code_reads(code.parts[2], names, places, base, asked)
    return found + code_reads(code.parts[1], names, places, base + first, asked)
