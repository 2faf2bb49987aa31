"""The scenarios of a set: how each moves each label."""

from __future__ import annotations

from collections.abc import Iterator, Mapping, Sequence
from dataclasses import dataclass
from fractions import Fraction

from ..days import Day
from ..explanations.notes import counted
from ..program import Status, Stop
from ..tables import DayTable
from .steps import Step

ALL = "all"


@dataclass(frozen=True)
class Scenario:
    """A name, and the steps of the labels that it moves."""

    name: str
    steps: Mapping[str, Step]


def one_by_one(labels: Sequence[str], steps: Sequence[Sequence[Step]]) -> Iterator[Scenario]:
    """Each label by each of its steps, while the others stay."""
    for label, those in zip(labels, steps):
        for step in those:
            yield Scenario(f"{label}_{step.name}", {label: step})


def all_at_once(labels: Sequence[str], steps: Sequence[Sequence[Step]]) -> Iterator[Scenario]:
    """All labels by their first step, all by their second one, and so on."""
    if len(set(map(len, steps))) > 1:
        raise Stop(Status.USAGE, "with --parallel each label has as many steps as the others")
    for number, those in enumerate(zip(*steps), 1):
        names = {step.name for step in those}
        name = names.pop() if len(names) == 1 else str(number)
        yield Scenario(f"{ALL}_{name}", dict(zip(labels, those)))


def replayed(
    labels: Sequence[str], history: DayTable, last: int, is_added: bool, path: str
) -> Iterator[Scenario]:
    """The last changes of a table, each from a day on which all labels have a value to the next
    one.

    A change is a factor, or an amount that is added. It moves all labels at once.
    """
    rows = {label: history.values.get(label) for label in labels}
    for label, values in rows.items():
        if not values:
            raise Stop(Status.ROW, f"{path}: it has no row of {label}")
    days = sorted(set.intersection(*(set(values or {}) for values in rows.values())))
    if len(days) <= last:
        has = f"{' and '.join(labels)} {'has' if len(labels) == 1 else 'have'}"
        changes = counted(max(len(days) - 1, 0), "change")
        raise Stop(Status.ROW, f"{path}: {has} {changes} from day to day, and not {last}")
    for before, day in list(zip(days, days[1:]))[-last:]:
        name = name_of(Day(day, bool(history.are_dates)))
        steps = {}
        for label, values in rows.items():
            old, new = (number_of(path, label, (values or {})[at]) for at in (before, day))
            steps[label] = change(name, old, new, is_added, f"{path}: {label}")
        yield Scenario(name, steps)


def name_of(day: Day) -> str:
    """The name of a day: `on_2026_01_05`, or `on_5`, and of a negative number `on_minus_5`."""
    return (
        f"on_{str(day).replace('-', 'minus_') if not day.is_date else str(day).replace('-', '_')}"
    )


def number_of(path: str, label: str, text: str) -> Fraction:
    if text in ("true", "false"):
        raise Stop(Status.ROW, f"{path}: {label} is no number")
    try:
        return Fraction(text)
    except ValueError as error:  # Python makes no number of so many digits
        raise Stop(Status.ROW, f"{path}: {label} has a number of {len(text):,} digits") from error


def change(name: str, old: Fraction, new: Fraction, is_added: bool, place: str) -> Step:
    if is_added:
        return Step(name, added=new - old)
    if old == 0:
        raise Stop(
            Status.ROW, f"{place} was 0 before {name.removeprefix('on_')}: --points adds changes"
        )
    return Step(name, factor=new / old)
