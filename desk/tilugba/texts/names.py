"""The names of a text: those that are declared, each in its set, with what its declaration says."""

from __future__ import annotations

import enum


class NameSet(enum.Enum):
    """The sets of names. Names of one set are apart from those of the others."""

    PARTY = "party"
    ASSET = "asset"
    LABEL = "label"
    TEMPLATE = "template"
    CONTRACT = "contract"

    @property
    def plural(self) -> str:
        return "parties" if self is NameSet.PARTY else self.value + "s"


class Declared:
    """A declared name and the place of its token. A flag is a label without decimals; bounds are
    counted in a label's last decimal.
    """

    __slots__ = ("name", "at", "decimals", "low", "high", "days")

    def __init__(self, name: str, at: int, days: int | None = None) -> None:
        self.name = name
        self.at = at
        self.decimals: int | None = None
        self.low: int | None = None
        self.high: int | None = None
        self.days = days

    @property
    def is_flag(self) -> bool:
        return self.decimals is None


class Declarations:
    """What the statements before the contracts, code or plans declare."""

    __slots__ = ("version", "amounts", "origin", "start", "sets")

    def __init__(self) -> None:
        self.version = 1
        self.amounts = 0
        self.origin: int | None = None
        self.start = 0
        self.sets: dict[NameSet, dict[str, Declared]] = {kind: {} for kind in NameSet}

    def with_names(self, kind: NameSet, names: dict[str, Declared]) -> Declarations:
        """The same, but for the names of one set."""
        found = Declarations()
        found.version, found.amounts = self.version, self.amounts
        found.origin, found.start = self.origin, self.start
        found.sets = self.sets | {kind: names}
        return found

    def names(self, kind: NameSet) -> dict[str, Declared]:
        return self.sets[kind]

    def numbers(self) -> list[str]:
        """The labels that are numbers."""
        return [name for name, label in self.sets[NameSet.LABEL].items() if not label.is_flag]

    def flags(self) -> list[str]:
        """The labels that are flags."""
        return [name for name, label in self.sets[NameSet.LABEL].items() if label.is_flag]
