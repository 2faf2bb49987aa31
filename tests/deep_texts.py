"""Texts that are as deep as a program takes them, in each form in which a term can stand in another: contracts, and code by hand."""
from collections.abc import Callable, Iterator
from dataclasses import dataclass

Form = Callable[[int], str]

HEAD = "portfolio 1;\namounts 2;\nparty A, B;\nasset EUR;\nnum FX : 2 in 0.50 .. 2.00;\nflag F;\n"
CODE_HEAD = HEAD.replace("portfolio 1", "payoff 1").replace("party", "start 0;\nparty")
PAY, CUT = "pay(EUR, A, B)", "cut(0, pay(0, EUR, A, B))"
# Depths that are above the greatest of a contract, and of code.
ABOVE, ABOVE_OF_CODE = 210, 420
DAYS = range(ABOVE_OF_CODE)
FIXINGS = "label,day,value\n" + "".join(f"FX,{day},1.00\nF,{day},true\n" for day in DAYS)
SCENARIO = "scenario,label,day,value\n" + "".join(f"s,FX,{day},1.00\ns,F,{day},true\n" for day in DAYS)
NOTHING_FIXED, CURVE = "label,day,value\n", "offset,factor\n0,1\n"
ASKED = ("--at", "0", "--from", "A", "--to", "B", "--asset", "EUR")


def wrapped(before: str, inner: str, behind: str) -> Form:
    return lambda depth: before * depth + inner + behind * depth


def scaled(form: Form, leaf: str) -> Form:
    """The leaf, times a deep number."""
    return lambda depth: f"scale({form(depth)}, {leaf})"


def numbers(read: str, flag: str) -> dict[str, Form]:
    """Deep numbers, of which some read what is fixed."""
    return {
        "max": wrapped("max(", read, ", 1.00)"),
        "max_right": wrapped(f"max({read}, ", "1.00", ")"),
        "min": wrapped("min(", read, ", 1.00)"),
        "plus": wrapped("(", read, " + 1.00)"),
        "minus_right": wrapped("(1.00 - ", read, ")"),
        "neg": wrapped("neg(", read, ")"),
        "if": wrapped(f"if({flag}, ", "1.00", ", 2.00)"),
        "round": wrapped("round(half_even, 2, ", read, ")"),
        "widen": wrapped("round(half_even, 2, widen(3, ", read, "))"),
        "acc": wrapped("acc(a, ", "a", ", 1, 0.00)"),
        "acc_start": wrapped(f"acc(a, max(a, {read}), 1, ", "1.00", ")"),
    }


def flags(flag: str) -> dict[str, Form]:
    """Deep flags."""
    return {
        "and": wrapped("(", flag, " & true)"),
        "and_right": wrapped(f"({flag} & ", "true", ")"),
        "or": wrapped("(", flag, " | false)"),
        "or_right": wrapped(f"({flag} | ", "false", ")"),
        "not": wrapped("not(", flag, ")"),
        "if_flag": wrapped("if(", flag, f", true, {flag})"),
    }


def contracts() -> dict[str, Form]:
    found = {
        "both": wrapped("both(", PAY, f", {PAY})"),
        "both_right": wrapped(f"both({PAY}, ", PAY, ")"),
        "scale": wrapped("scale(1, ", PAY, ")"),
        "after": wrapped("after(1, ", PAY, ")"),
        "let": lambda depth: "".join(f"let x{name} = 1 in " for name in range(depth)) + PAY,
        "if_then": wrapped("if obs(F, 0) within 1 then ", PAY, " else zero"),
        "if_else": wrapped("if obs(F, 0) within 1 then zero else ", PAY, ""),
    }
    found |= {name: scaled(form, PAY) for name, form in numbers("obs(FX, 0)", "obs(F, 0)").items()}
    when = lambda form: lambda depth: f"if {form(depth)} within 1 then {PAY} else zero"
    return found | {name: when(form) for name, form in flags("obs(F, 0)").items()}


def codes() -> dict[str, Form]:
    found = {
        "add": wrapped("add(", CUT, f", {CUT})"),
        "add_right": wrapped(f"add({CUT}, ", CUT, ")"),
        "scale": wrapped("scale(1, ", CUT, ")"),
        "loop": wrapped("loop model(F, 0) upto 1 then ", CUT, " else none"),
        "loop_else": wrapped("loop model(F, 0) upto 1 then none else ", CUT, ""),
    }
    found |= {name: scaled(form, CUT) for name, form in numbers("model(FX, 0)", "model(F, 0)").items()}
    when = lambda form: lambda depth: f"loop {form(depth)} upto 1 then {CUT} else none"
    return found | {name: when(form) for name, form in flags("model(F, 0)").items()}


@dataclass(frozen=True)
class Deep:
    """A form, the greatest depth in which it is taken, and the text of that depth."""

    name: str
    is_code: bool
    depth: int
    text: str


def deepest(text_of: Form, above: int, is_taken: Callable[[str], bool]) -> int:
    """The greatest depth below another in which the text is taken, by halves."""
    low, high = 0, above
    while high - low > 1:
        middle = (low + high) // 2
        low, high = (middle, high) if is_taken(text_of(middle)) else (low, middle)
    return low


def deep_contracts(is_taken: Callable[[str], bool]) -> Iterator[Deep]:
    for name, form in contracts().items():
        text_of = lambda depth, form=form: f"{HEAD}contract c = {form(depth)};\n"
        depth = deepest(text_of, ABOVE, is_taken)
        yield Deep(name, False, depth, text_of(depth))


def deep_codes(is_taken: Callable[[str], bool]) -> Iterator[Deep]:
    for name, form in codes().items():
        text_of = lambda depth, form=form: f"{CODE_HEAD}code c = {form(depth)};\n"
        depth = deepest(text_of, ABOVE_OF_CODE, is_taken)
        yield Deep(name, True, depth, text_of(depth))
