"""A book of a clearing member for tests and measures: forwards, swaps, options, touches,
averages and guarantees over some days.

The same numbers give the same texts. As a script it writes them: `python3 -m tests.member FOLDER
CONTRACTS PARTIES ASSETS DAYS`.
"""

from __future__ import annotations

import datetime
import random
import sys
from dataclasses import dataclass
from pathlib import Path

ORIGIN = datetime.date(2026, 1, 5)
ASSETS = ("EUR", "USD", "GBP", "CHF", "SEK")
# The label of the rate of each further asset against the first one, with its level.
LEVELS = {"USD": 1.1700, "GBP": 0.8700, "CHF": 0.9350, "SEK": 10.9500}


@dataclass(frozen=True)
class Member:
    """The size of a book, and of the table of what is observed."""

    contracts: int = 60
    parties: int = 5
    assets: int = 3
    days: int = 31
    seed: int = 1

    @property
    def names(self) -> list[str]:
        """The member, and those with whom it trades."""
        return ["Member", *(f"Client_{number}" for number in range(1, self.parties + 1))]

    @property
    def rates(self) -> list[str]:
        return [f"EUR{asset}" for asset in ASSETS[1 : self.assets]]

    def book(self) -> str:
        chance = random.Random(self.seed)
        lines = [
            "portfolio 1;",
            "amounts 2;",
            f"origin {ORIGIN};",
            f"party {', '.join(self.names)};",
        ]
        lines.append(f"asset {', '.join(ASSETS[: self.assets])};")
        lines += [f"num {rate} : 4 in 0.1000 .. 50.0000;" for rate in self.rates]
        lines += ["num Euribor : 5 in -0.02000 .. 0.20000;", "flag Default;"]
        lines += [
            f"contract c{number:03} = {self.contract(number, chance)};"
            for number in range(self.contracts)
        ]
        return "".join(f"{line}\n" for line in lines)

    def contract(self, number: int, chance: random.Random) -> str:
        """A contract with one of the parties, in turn."""
        party = self.names[1 + number % self.parties]
        sides = ("Member", party) if chance.random() < 0.5 else (party, "Member")
        kinds = (forward, swap, option, touch, average, guarantee)
        rate = chance.choice(self.rates) if self.rates else "Euribor"
        asset = rate.removeprefix("EUR") if self.rates else "EUR"
        return kinds[number % len(kinds)](Terms(*sides, asset, rate, chance))

    def fixings(self) -> str:
        """Observed rates of the days up to the last one, without weekends."""
        chance = random.Random(self.seed + 1)
        levels = {rate: LEVELS[rate.removeprefix("EUR")] for rate in self.rates} | {
            "Euribor": 0.021
        }
        lines = ["label,day,value"]
        for day in range(-10, self.days):
            date = ORIGIN + datetime.timedelta(day)
            for label in levels:
                levels[label] *= 1 + chance.gauss(0, 0.004)
                if date.weekday() < 5:
                    lines.append(
                        f"{label},{date},{levels[label]:.{5 if label == 'Euribor' else 4}f}"
                    )
            if date.weekday() < 5:
                lines.append(f"Default,{date},false")
        return "".join(f"{line}\n" for line in lines)

    def curve(self, every: int = 30, until: int = 720) -> str:
        rows = [
            f"{offset},{1 / (1 + 0.021 * offset / 360):.9f}"
            for offset in range(0, until + 1, every)
        ]
        return "offset,factor\n" + "".join(f"{row}\n" for row in rows)

    def write(self, folder: Path) -> None:
        for name, text in (
            ("book.txt", self.book()),
            ("fixings.csv", self.fixings()),
            ("curve.csv", self.curve()),
        ):
            (folder / name).write_text(text)


@dataclass(frozen=True)
class Terms:
    """Who pays whom, in what, by which rate."""

    payer: str
    receiver: str
    asset: str
    rate: str
    chance: random.Random

    def days(self, first: int = 10, last: int = 360) -> int:
        return self.chance.randint(first, last)

    def nominal(self) -> str:
        return f"{self.chance.randint(1, 90) * 1000}.00"

    def pay(self, amount: str, asset: str | None = None, back: bool = False) -> str:
        sides = (self.receiver, self.payer) if back else (self.payer, self.receiver)
        return f"scale({amount}, pay({asset or self.asset}, {', '.join(sides)}))"


def forward(it: Terms) -> str:
    sides = it.pay(it.nominal(), "EUR"), it.pay(it.nominal(), back=True)
    return f"after({it.days()}, both({', '.join(sides)}))"


def swap(it: Terms) -> str:
    """Two half years of a fixed rate against one that is observed."""
    nominal = it.nominal()
    legs = []
    for start in (it.days(1, 60), it.days(180, 200)):
        rate = f"round(half_even, 2, (obs(Euribor, 0) * {nominal}))"
        floating = f"let x = {rate} in after(180, {it.pay('x', 'EUR')})"
        legs.append(
            f"after({start}, both({floating}, after(180, {it.pay('21.50', 'EUR', back=True)})))"
        )
    return f"both({', '.join(legs)})"


def option(it: Terms) -> str:
    strike = f"{LEVELS.get(it.asset, 0.02):.4f}"
    gain = f"round(half_even, 2, ((obs({it.rate}, 0) - {strike}) * {it.nominal()}))"
    tested = f"if (obs({it.rate}, 0) > {strike}) within 0 then {it.pay(gain)} else zero"
    return f"both({it.pay('125.00', 'EUR', back=True)}, after({it.days(5, 200)}, {tested}))"


def touch(it: Terms) -> str:
    barrier = f"{LEVELS.get(it.asset, 0.02) * 1.01:.4f}"
    tested = f"if (obs({it.rate}, 0) >= {barrier}) within {it.days(10, 90)}"
    return f"{tested} then {it.pay('2500.00')} else zero"


def average(it: Terms) -> str:
    mean = f"div(half_even, 4, acc(sum, (sum + obs({it.rate}, 0)), 20, 0.0000), 20)"
    gain = f"round(half_even, 2, (max((m - {LEVELS.get(it.asset, 0.02):.4f}), 0) * {it.nominal()}))"
    return f"after({it.days(20, 90)}, let m = {mean} in {it.pay(gain)})"


def guarantee(it: Terms) -> str:
    fee = it.pay("40.00", "EUR", back=True)
    return f"if obs(Default, 0) within {it.days(30, 200)} then {it.pay('5000.00')} else {fee}"


if __name__ == "__main__":
    out, sizes = Path(sys.argv[1]), [int(it) for it in sys.argv[2:]]
    out.mkdir(parents=True, exist_ok=True)
    Member(*sizes).write(out)
