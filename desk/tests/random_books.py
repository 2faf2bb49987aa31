"""Random books and tables for tests of subcommands, by the makers of tests/random, whose seeds give
the same on each machine.
"""

from __future__ import annotations

import sys
from collections.abc import Iterable, Iterator
from dataclasses import dataclass, field
from importlib.machinery import SourceFileLoader
from importlib.util import module_from_spec, spec_from_loader
from types import ModuleType
from typing import Any

from tests.support import TOP
from tilugba.program import MissingFixing, Program

Place = tuple[str, int]


def script(name: str) -> ModuleType:
    """A script of the folder tests, whose file has no suffix, as a module."""
    if name not in sys.modules:
        loader = SourceFileLoader(name, str(TOP / "tests" / name.removeprefix("script_")))
        spec = spec_from_loader(name, loader)
        assert spec is not None
        written, sys.dont_write_bytecode = sys.dont_write_bytecode, True
        try:
            sys.modules[name] = module_from_spec(spec)
            loader.exec_module(sys.modules[name])
        finally:
            sys.dont_write_bytecode = written
    return sys.modules[name]


makers = script("script_random")


@dataclass(frozen=True)
class RandomBook:
    """A random book of accepted contracts. `world` has a value for each place that they read, and
    for all places near the start.
    """

    dice: Any
    decls: Any
    named: list[tuple[str, Any]]
    text: str
    world: dict[Place, Any]

    def table(self, fixed: dict[Place, Any]) -> bytes:
        """A table of fixings with these places."""
        return makers.table_text(self.dice, self.decls, fixed).encode()

    def some_value(self, label: str) -> Any:
        return makers.some_value(self.dice, self.decls.label[label])


def random_book(seed: int) -> RandomBook | None:
    """The book of a seed, or nothing if none of its contracts is accepted."""
    dice = makers.Dice(seed)
    decls = makers.some_decls(dice)
    maker = makers.Maker(dice, decls, False)
    named = [(f"c{number}", maker.whole(dice.between(1, 6))) for number in range(5)]
    named = [
        (name, c)
        for name, c in named
        if makers.rules.check_line(decls, name, makers.model.instance(c, decls.days))[1]
    ]
    if not named:
        return None
    contracts = [(name, makers.model.instance(c, decls.days)) for name, c in named]
    world = makers.some_world(dice, decls, contracts)
    return RandomBook(dice, decls, named, makers.portfolio_text(dice, decls, named), world)


def random_books(seeds: range) -> Iterator[tuple[int, RandomBook]]:
    """The books of some seeds, each with its seed."""
    for seed in seeds:
        if book := random_book(seed):
            yield seed, book


# ---- Books of which others are made, over what is observed as it is asked for


@dataclass
class Source:
    """A random portfolio: what it declares, and its contracts, each as a term."""

    declared: Any
    contracts: list[tuple[str, Any]]
    text: bytes

    @property
    def names(self) -> list[str]:
        return [name for name, _ in self.contracts]


@dataclass
class World:
    """What is observed of all labels of some declarations, as it is asked for: the same value of a
    place each time.
    """

    dice: Any
    declared: Any
    rows: dict[Place, str] = field(default_factory=dict)

    def at(self, label: str, day: int) -> str:
        place = label, day
        if place not in self.rows:
            self.rows[place] = self.value(label)
        return self.rows[place]

    def value(self, label: str) -> str:
        known = self.declared.label[label]
        value = makers.some_value(self.dice, known)
        if known is None:
            return "true" if value else "false"
        return str(makers.model.decimal(value // 10 ** (27 - known[0]), known[0]))

    def fill(self, first: int, last: int) -> None:
        for name, _ in self.declared.labels:
            for day in range(first, last + 1):
                self.at(name, day)

    def table(self, labels: Iterable[str] | None = None) -> bytes:
        known = {name for name, _ in self.declared.labels} if labels is None else set(labels)
        return table_of({place: value for place, value in self.rows.items() if place[0] in known})


def table_of(rows: dict[Place, str]) -> bytes:
    return (
        "label,day,value\n" + "".join(f"{label},{day},{it}\n" for (label, day), it in rows.items())
    ).encode()


def narrowed(dice: Any, full: Any, start: int) -> Any:
    """Some of the declarations, for a book of its own that begins on another day."""

    def some(things: list[Any], least: int) -> list[Any]:
        return [it for number, it in enumerate(things) if number < least or dice.chance(60)]

    assets = [(name, full.decimals[name]) for name in some(full.assets, 1)]
    labels, templates = some(full.labels, 0), some(full.templates, 0)
    head = (full.version, full.amounts, full.origin, start)
    return makers.Decls(*head, some(full.parties, 2), assets, labels, templates)


def source(dice: Any, known: Any, prefix: str, most: int = 4, least: int = 1) -> Source:
    """A book of some contracts that are accepted."""
    maker = makers.Maker(dice, known, False)
    found: list[tuple[str, Any]] = []
    wanted = dice.between(least, most)
    while len(found) < wanted:
        term = maker.whole(dice.between(1, 5))
        name = f"{prefix}{len(found)}"
        if makers.rules.check_line(known, name, makers.model.instance(term, known.days))[1]:
            found.append((name, term))
    return Source(known, found, makers.portfolio_text(dice, known, found).encode())


def flows(program: Program, world: World, book: bytes, labels: Iterable[str]) -> list[str]:
    """The flow lines of a book over the world, which gets what the book reads."""
    labels = list(labels)
    while True:
        answer = program.run("flows", book, world.table(labels))
        fault = answer.fault
        if fault is None or not isinstance(fault.cause, MissingFixing):
            return answer.expected().decode().splitlines()
        world.at(fault.cause.label, fault.cause.day)
