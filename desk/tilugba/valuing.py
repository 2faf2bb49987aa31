"""Runs of `value`: what is asked of each, and its answer."""

from __future__ import annotations

import argparse
from dataclasses import dataclass

from .lines import VALUE
from .program import Program, Status, Stop


@dataclass(frozen=True)
class Question:
    """What the payer is to pay the receiver in an asset."""

    payer: str
    receiver: str
    asset: str

    @classmethod
    def of(cls, arguments: argparse.Namespace) -> Question:
        return cls(arguments.payer, arguments.receiver, arguments.asset)

    def value(
        self,
        program: Program,
        code: str | bytes,
        fixings: str | bytes,
        curve: str | bytes,
        day: str,
    ) -> str:
        """The value on a day, as it was printed. Files are named, or are bytes."""
        asked = ("--at", day, "--from", self.payer, "--to", self.receiver, "--asset", self.asset)
        told = program.run("value", code, fixings, curve, *asked).expected().decode(
            "utf-8", "replace"
        ).removesuffix("\n")
        if not VALUE.fullmatch(told):
            first, _, _ = told.partition("\n")
            raise Stop(Status.DESK, f"no value: {first}")
        return told


def add_question(parser: argparse.ArgumentParser) -> None:
    """The options that make a question."""
    parser.add_argument(
        "--from", dest="payer", metavar="P", required=True, help="the party that is to pay"
    )
    parser.add_argument(
        "--to", dest="receiver", metavar="Q", required=True, help="the party that is to get it"
    )
    parser.add_argument("--asset", metavar="A", required=True, help="in which asset")
