"""Random contracts of every form, most of which are accepted: for what has to hold of any
contract.
"""

from __future__ import annotations

import random

HEAD = """portfolio 1;
amounts 2;
origin 2026-01-05;
start 3;
party A, B, C;
asset EUR, USD;
num FX : 4 in 0.5000 .. 2.0000;
num R : 2 in -5.00 .. 5.00;
flag F;
template T = 7;
"""
FIRST_DAY = -12


def contract(chance: random.Random, depth: int = 4) -> str:
    """A contract whose parts are a few days apart."""
    kinds = (
        [payment] if depth == 0 else [payment, both, both, later, later, bound, waiting, waiting]
    )
    return chance.choice(kinds)(chance, depth)


def payment(chance: random.Random, _: int = 0) -> str:
    payer, receiver = chance.choices("ABC", k=2)
    return f"scale({amount(chance)}, pay({chance.choice(('EUR', 'USD'))}, {payer}, {receiver}))"


def both(chance: random.Random, depth: int) -> str:
    return f"both({contract(chance, depth - 1)}, {contract(chance, depth - 1)})"


def later(chance: random.Random, depth: int) -> str:
    return f"after({days(chance)}, {contract(chance, depth - 1)})"


def bound(chance: random.Random, depth: int) -> str:
    inner = f"after({days(chance)}, scale(round(floor, 2, x), pay(EUR, A, B)))"
    return f"let x = {number(chance)} in both({inner}, {contract(chance, depth - 1)})"


def waiting(chance: random.Random, depth: int) -> str:
    parts = contract(chance, depth - 1), contract(chance, depth - 1)
    return f"if {truth(chance)} within {days(chance)} then {parts[0]} else {parts[1]}"


def days(chance: random.Random) -> str:
    return chance.choice(["T", *map(str, range(6))])


def amount(chance: random.Random) -> str:
    return f"round({chance.choice(('floor', 'half_even'))}, 2, {number(chance)})"


def number(chance: random.Random) -> str:
    offset = chance.choice((0, 0, -1, -3))
    return chance.choice(
        (
            f"obs(FX, {offset})",
            f"(obs(R, {offset}) * 10.00)",
            f"acc(s, (s + obs(FX, 0)), {chance.randrange(5)}, 0.0000)",
            f"if({truth(chance)}, obs(FX, {offset}), 1.2500)",
            f"max(obs(R, 0), -1.00)",
            f"{chance.randrange(1, 99)}.50",
        )
    )


def truth(chance: random.Random) -> str:
    return chance.choice(
        (
            f"obs(F, {chance.choice((0, -1))})",
            f"(obs(FX, 0) > {chance.choice(('0.9000', '1.1000', '1.4000'))})",
            f"(obs(F, 0) | (obs(R, -2) < 0.00))",
            f"acc(t, (t | obs(F, 0)), {chance.randrange(4)}, false)",
        )
    )


def book(chance: random.Random, count: int) -> str:
    return HEAD + "".join(f"contract c{number} = {contract(chance)};\n" for number in range(count))


def fixings(chance: random.Random, last: int, share: float = 0.7) -> str:
    """Rows of a share of the days up to the last one; of the first day there is each."""
    lines = ["label,day,value"]
    for day in range(FIRST_DAY, last + 1):
        for label in "FX", "R", "F":
            if day == FIRST_DAY or chance.random() < share:
                lines.append(f"{label},{day},{value(label, chance)}")
    return "".join(f"{line}\n" for line in lines)


def value(label: str, chance: random.Random) -> str:
    if label == "F":
        return chance.choice(("true", "false", "false", "false"))
    return f"{chance.uniform(0.5, 2):.4f}" if label == "FX" else f"{chance.uniform(-5, 5):.2f}"
