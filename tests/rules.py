"""The rules by which the second reading of the language accepts a contract or code, and what `check` says of it (model.py has terms
and texts). A rule that is broken raises `Refused`, with the node that breaks it."""

from model import COMPARISONS, EXPRESSIONS, MOST, date_of, decimal, number, quotient


class Refused(Exception):
    def __init__(self, rule, term):
        super().__init__(rule)
        self.rule, self.node = rule, term.node


def need(holds, rule, term):
    if not holds:
        raise Refused(rule, term)


def expr_sort(e, names):
    """number or truth."""
    op = e.op
    if op == "lit":
        return "number"
    if op == "yes":
        return "truth"
    if op == "var":
        return names[e.of]
    if op in ("obs", "model"):
        return names.decls_sort(e.of[0])
    if op == "acc":
        first = expr_sort(e.parts[1], names)
        need(expr_sort(e.parts[0], names.and_one(first)) == first, "sort", e)
        return first
    sorts = [expr_sort(part, names) for part in e.parts]
    if op in ("not", "&", "|"):
        need(all(sort == "truth" for sort in sorts), "sort", e)
        return "truth"
    if op == "if":
        need(sorts[0] == "truth" and sorts[1] == sorts[2], "sort", e)
        return sorts[1]
    need(all(sort == "number" for sort in sorts), "sort", e)
    return "truth" if op in COMPARISONS else "number"


class Names(list):
    """What is known of bound names, innermost first, beside the declarations."""

    def __init__(self, decls, known=()):
        super().__init__(known)
        self.decls = decls

    def and_one(self, known):
        return Names(self.decls, [known] + list(self))

    def decls_sort(self, label):
        return "truth" if self.decls.label[label] is None else "number"


def sorts(c, names):
    """The rule on sorts, for contracts and for code."""
    if c.op == "scale":
        factor = expr_sort(c.parts[0], names)
        sorts(c.parts[1], names)
        need(factor == "number", "sort", c)
    elif c.op == "let":
        sorts(c.parts[1], names.and_one(expr_sort(c.parts[0], names)))
    elif c.op in ("within", "loop"):
        test = expr_sort(c.parts[0], names)
        sorts(c.parts[1], names)
        sorts(c.parts[2], names)
        need(test == "truth", "sort", c)
    else:
        for part in c.parts:
            sorts(part, names)


NEVER = float("inf")


def expr_time(e, names):
    """The first day on which an expression is known, as days from where it stands; minus infinity where it always is."""
    if e.op in ("lit", "yes"):
        return -NEVER
    if e.op == "var":
        return names[e.of]
    if e.op == "obs":
        return e.of[1]
    if e.op == "acc":
        body = expr_time(e.parts[0], names.and_one(-NEVER))
        return max(body, expr_time(e.parts[1], Names(names.decls, [time + e.of for time in names])) - e.of)
    return max(expr_time(part, names) for part in e.parts)


def times(c, names):
    """The rule on times: the last day before which a contract pays nothing; infinity where it never pays."""
    later = lambda days: Names(names.decls, [time - days for time in names])
    if c.op == "zero":
        return NEVER
    if c.op == "pay":
        return 0
    if c.op == "both":
        return min(times(c.parts[0], names), times(c.parts[1], names))
    if c.op == "scale":
        start = times(c.parts[1], names)
        need(expr_time(c.parts[0], names) <= start, "time", c)
        return start
    if c.op == "after":
        return times(c.parts[0], later(c.of)) + c.of
    if c.op == "let":
        return times(c.parts[1], names.and_one(expr_time(c.parts[0], names)))
    start = min(times(c.parts[1], names), times(c.parts[2], later(c.of)) + c.of)
    need(expr_time(c.parts[0], names) <= 0, "time", c)
    return start


def expr_scale(e, names):
    """The scale of an expression; None where it is a truth value."""
    op = e.op
    if op == "lit":
        scale = e.of[1]
    elif op == "yes":
        return None
    elif op == "var":
        return names[e.of]
    elif op in ("obs", "model"):
        label = names.decls.label[e.of[0]]
        return None if label is None else label[0]
    elif op == "acc":
        scale = expr_scale(e.parts[1], names)
        body = expr_scale(e.parts[0], names.and_one(scale))
        need(scale is None or body <= scale, "scale", e)
        return scale
    else:
        scales = [expr_scale(part, names) for part in e.parts]
        if op in ("not", "&", "|") or op in COMPARISONS:
            return None
        if op == "if":
            if scales[1] is None:
                return None
            scale = max(scales[1:])
        elif op == "*":
            scale = sum(scales)
        elif op == "widen":
            need(scales[0] <= e.of, "scale", e)
            scale = e.of
        elif op in ("round", "div"):
            scale = e.of[1]
        else:
            scale = max(scales)
    need(scale <= 27, "scale", e)
    return scale


def scales(c, names, most, decimals=None):
    """The rule on scales: the scale of a contract, or of code, each node of which has at most so many decimals; and its scale in each
    asset that it pays, which has at most the decimals of the asset, where these are given."""
    again = lambda parts: greatest([scales(part, names, most, decimals) for part in parts])
    if c.op in ("zero", "none"):
        scale, own = 0, {}
    elif c.op == "pay":
        scale, own = 0, {c.of[0]: 0}
    elif c.op == "payon":
        scale, own = 9, {}
    elif c.op == "scale":
        factor = expr_scale(c.parts[0], names)
        scale, own = again(c.parts[1:])
        scale, own = factor + scale, {asset: factor + one for asset, one in own.items()}
    elif c.op == "let":
        scale, own = scales(c.parts[1], names.and_one(expr_scale(c.parts[0], names)), most, decimals)
    elif c.op in ("within", "loop"):
        expr_scale(c.parts[0], names)
        scale, own = again(c.parts[1:])
    else:
        scale, own = again(c.parts)
    need(scale <= most and all(one <= (decimals or {}).get(asset, one) for asset, one in own.items()), "scale", c)
    return scale, own


def greatest(found):
    """The greatest of scales, and of those in each asset."""
    own = {}
    for _, parts in found:
        own.update({asset: max(scale, own.get(asset, 0)) for asset, scale in parts.items()})
    return max(scale for scale, _ in found), own


def sizes(c, limits):
    """The rule on sizes: (height, nodes, reach, past, work). `limits` has the greatest height and number of nodes, and the numbers of
    the templates where it is code."""
    highest, most, setting = limits
    order = c.parts if c.op != "acc" else (c.parts[1], c.parts[0])
    parts = [sizes(part, limits) for part in order]
    height = 1 + max([part[0] for part in parts], default=0)
    nodes = 1 + sum(part[1] for part in parts)
    past = max([part[3] for part in parts], default=0)
    reach = max([part[2] for part in parts], default=0)
    days = 0
    fits = True
    if c.op == "acc":
        days = c.of
        first, body = parts
        past = max(first[3] + days, body[3] + max(0, days - 1))
        work = 1 + first[4] + days * body[4]
    elif c.op in EXPRESSIONS:
        if c.op == "obs":
            past = max(0, -c.of[1])
        if c.op == "model":
            fits = abs(date_of(c.of[1], setting)) <= 2_000_000
        work = 1 + sum(part[4] for part in parts)
    elif c.op == "within":
        days = c.of
        reach += days
        work = (days + 1) * parts[0][4] + parts[1][4] + parts[2][4]
    elif c.op == "loop":
        days = date_of(c.of, setting)
        fits = 0 <= days
        # A loop lasts beside what is entered in its days, and not beside what comes behind them.
        reach = max(days + parts[1][2], parts[2][2])
        work = (days + 1) * parts[0][4] + parts[1][4] + parts[2][4]
    else:
        if c.op == "after":
            days = c.of
            reach += days
        if c.op in ("payon", "cut"):
            fits = abs(date_of(c.of[0] if c.op == "payon" else c.of, setting)) <= 2_000_000
        work = sum(part[4] for part in parts)
    fits = fits and height <= highest and nodes <= most and days <= 100_000 and reach <= 100_000 and work <= 10_000_000
    if setting is None:
        fits = fits and reach + past <= 1_000_000
    need(fits, "size", c)
    return height, nodes, reach, past, work


def aligned(e, interval, scale, wanted):
    """An interval at a greater scale, at the node that asks for it."""
    ends = tuple(end * 10 ** (wanted - scale) for end in interval)
    need(all(abs(end) <= MOST for end in ends), "bound", e)
    return ends


def expr_bound(e, names):
    """(scale, interval) of a number, and None of a truth value."""
    op = e.op
    if op == "lit":
        return e.of[1], (e.of[0], e.of[0])
    if op == "yes":
        return None
    if op == "var":
        return names[e.of]
    if op in ("obs", "model"):
        label = names.decls.label[e.of[0]]
        return None if label is None else (label[0], label[1:])
    if op == "acc":
        first = expr_bound(e.parts[1], names)
        known = first
        for _ in range(e.of):
            body = expr_bound(e.parts[0], names.and_one(known))
            if first is not None:
                known = first[0], aligned(e, body[1], body[0], first[0])
        return known
    parts = [expr_bound(part, names) for part in e.parts]
    if op in ("not", "&", "|") or (op == "if" and parts[1] is None):
        return None
    if op == "if":
        parts = parts[1:]
    if op == "neg":
        scale, (low, high) = parts[0]
        return scale, (-high, -low)
    if op == "widen":
        return e.of, aligned(e, parts[0][1], parts[0][0], e.of)
    if op == "round":
        mode, to = e.of
        scale, interval = parts[0]
        if to >= scale:
            return to, aligned(e, interval, scale, to)
        return to, tuple(quotient(mode, end, 10 ** (scale - to)) for end in interval)
    if op == "*":
        scale = parts[0][0] + parts[1][0]
        ends = [one * other for one in parts[0][1] for other in parts[1][1]]
    elif op == "div":
        mode, scale = e.of
        (top_scale, top), (below_scale, below) = parts
        need(not below[0] <= 0 <= below[1], "bound", e)
        up = scale + below_scale - top_scale
        need(abs(up) <= 37, "bound", e)
        top = aligned(e, top, 0, max(0, up))
        below = aligned(e, below, 0, max(0, -up))
        ends = [quotient(mode, one, other) for one in top for other in below]
    else:
        scale = max(parts[0][0], parts[1][0])
        one, other = (aligned(e, interval, own, scale) for own, interval in parts)
        if op in COMPARISONS:
            return None
        if op == "+":
            ends = [one[0] + other[0], one[1] + other[1]]
        elif op == "-":
            ends = [one[0] - other[1], one[1] - other[0]]
        elif op in ("min", "max"):
            pick = min if op == "min" else max
            ends = [pick(one[0], other[0]), pick(one[1], other[1])]
        else:
            ends = one + other
    need(all(abs(end) <= MOST for end in ends), "bound", e)
    return scale, (min(ends), max(ends))


def bounds(c, names, limits):
    """The rule on bounds: (scale, total). `limits` has the greatest total and the scale to which it is aligned."""
    most, amounts = limits
    widest = lambda parts: max(part[0] for part in parts)
    at = lambda parts: [total * 10 ** (widest(parts) - scale) for scale, total in parts]
    if c.op in ("zero", "none"):
        scale, total = 0, 0
    elif c.op == "pay":
        scale, total = 0, 1
    elif c.op == "payon":
        scale, total = 9, 10 ** 10
    elif c.op in ("both", "add"):
        parts = [bounds(part, names, limits) for part in c.parts]
        scale, total = widest(parts), sum(at(parts))
    elif c.op in ("within", "loop"):
        expr_bound(c.parts[0], names)
        parts = [bounds(part, names, limits) for part in c.parts[1:]]
        scale, total = widest(parts), max(at(parts))
    elif c.op == "scale":
        own, (low, high) = expr_bound(c.parts[0], names)
        scale, total = bounds(c.parts[1], names, limits)
        scale, total = scale + own, total * max(abs(low), abs(high))
    elif c.op == "let":
        scale, total = bounds(c.parts[1], names.and_one(expr_bound(c.parts[0], names)), limits)
    else:
        scale, total = bounds(c.parts[0], names, limits)
    need(total <= most and total * 10 ** (amounts - scale) <= most, "bound", c)
    return scale, total


def check(decls, c):
    """(start, scale, total, horizon) of an accepted contract, whose days are numbers; else raises Refused."""
    number(c)
    sorts(c, Names(decls))
    start = times(c, Names(decls))
    scale, _ = scales(c, Names(decls), decls.amounts, decls.decimals)
    sizes(c, (200, 100_000, None))
    _, total = bounds(c, Names(decls), (10 ** 27, decls.amounts))
    return start, scale, total * 10 ** (decls.amounts - scale), horizon(c)


def check_code(decls, code, setting):
    """Raises Refused where code is refused at these numbers of the templates; answers the most that it is worth, at nine decimals more
    than amounts have."""
    number(code)
    sorts(code, Names(decls))
    scales(code, Names(decls), decls.amounts + 9)
    sizes(code, (400, 200_000, setting))
    scale, total = bounds(code, Names(decls), (MOST, decls.amounts + 9))
    return total * 10 ** (decls.amounts + 9 - scale)


def horizon(c):
    parts = [horizon(part) for part in c.parts if part.op not in EXPRESSIONS]
    if c.op in ("zero", "pay"):
        return int(c.op == "pay")
    days = c.of if c.op in ("after", "within") else 0
    return max(parts) and days + max(parts)


def check_line(decls, name, c):
    """The line of `check`, and whether the contract is accepted."""
    try:
        start, scale, total, end = check(decls, c)
    except Refused as refusal:
        return f"{name} refused {refusal.rule} node {refusal.node}\n", False
    start = "always" if start == NEVER else start
    return f"{name} accepted start {start} scale {scale} total {decimal(total, decls.amounts)} horizon {end}\n", True
