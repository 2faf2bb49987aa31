"""Reads a file of trades: JSON, or CSV with a column for each term."""

from __future__ import annotations

import json
from collections.abc import Iterator
from dataclasses import dataclass
from decimal import Decimal
from typing import Any

from ..explanations.notes import counted
from ..files import read_file
from ..program import Status, Stop
from ..rows.fields import Fields
from ..tables import MARK, records

STRUCTURE = "contractStructure"
# The dictionary has dates with a time of the day, which is midnight.
MIDNIGHT = "T00:00:00"


@dataclass(frozen=True)
class Trade:
    """The terms of a trade, and the trades or rates that it refers to."""

    fields: Fields
    structure: tuple[dict[str, Any], ...] = ()

    @property
    def where(self) -> str:
        return self.fields.where

    def inner(self, terms: dict[str, Any], name: str) -> Trade:
        """The terms of what this trade refers to."""
        return trade_of(f"{self.where}: {STRUCTURE}: {name}", terms)


def read_trades(path: str) -> list[Trade]:
    """The trades of a file."""
    data = read_file(path)
    text = data.removeprefix(MARK).lstrip()
    found = list(from_json(path, data) if text[:1] in (b"[", b"{") else from_table(path, data))
    first: dict[str, str] = {}
    for trade in found:
        name = trade.fields.text("contractID")
        if name in first:
            raise trade.fields.fault("contractID", f"{name} is that of another one, {first[name]}")
        first[name] = trade.where.removeprefix(f"{path}: ")
    return found


def from_table(path: str, data: bytes) -> Iterator[Trade]:
    found = list(records(data))
    if not found:
        raise Stop(Status.ROW, f"{path}: it is empty")
    header = found[0].texts
    for number, name in enumerate(header):
        if name in header[:number] or not name:
            raise Stop(Status.ROW, f"{path}: record 1: {name or 'a column'}: it is there twice")
    for record in found[1:]:
        where = f"{path}: record {record.number}"
        if len(record.fields) != len(header):
            has = f"it has {counted(len(record.fields), 'field')}, and the header has {len(header)}"
            raise Stop(Status.ROW, f"{where}: {has}")
        terms = {name: text for name, text in zip(header, record.texts) if text}
        if STRUCTURE in terms:
            raise Fields(where, terms).fault(STRUCTURE, "it is taken in JSON alone")
        yield trade_of(where, terms)


def from_json(path: str, data: bytes) -> Iterator[Trade]:
    """The trades of a list, or of the member `contracts` of an object."""
    try:
        found = json.loads(
            data, parse_float=plain, parse_int=plain, parse_constant=str, object_pairs_hook=members
        )
    except json.JSONDecodeError as error:
        at = f"line {error.lineno} column {error.colno}"
        raise Stop(Status.ROW, f"{path}: {at}: {error.msg}") from error
    except (ValueError, RecursionError) as error:
        raise Stop(Status.ROW, f"{path}: {error}") from error
    if isinstance(found, dict):
        found = found.get("contracts", [found])
    if not isinstance(found, list):
        raise Stop(Status.ROW, f"{path}: contracts: it is no list")
    for number, terms in enumerate(found, 1):
        where = f"{path}: trade {number}"
        if not isinstance(terms, dict):
            raise Stop(Status.ROW, f"{where}: it is no object of terms")
        yield trade_of(where, terms)


def plain(number: str) -> str:
    """A number as it is written in a text, from one of JSON, which may have an exponent."""
    value = Decimal(number)
    return f"{value:f}" if abs(value.adjusted()) < 100 else number


def members(pairs: list[tuple[str, Any]]) -> dict[str, Any]:
    for number, (name, _) in enumerate(pairs):
        if any(name == earlier for earlier, _ in pairs[:number]):
            raise ValueError(f"{name} is there twice in one trade")
    return dict(pairs)


def trade_of(where: str, terms: dict[str, Any]) -> Trade:
    """A trade of its terms. A term that is null is not there."""
    given = {name: it for name, it in terms.items() if it is not None and it != ""}
    structure = given.pop(STRUCTURE, [])
    fields = Fields(where, {name: scalar(where, name, it) for name, it in given.items()})
    if not isinstance(structure, list) or not all(isinstance(it, dict) for it in structure):
        raise fields.fault(STRUCTURE, "it is no list of objects")
    return Trade(fields, tuple(structure))


def scalar(where: str, name: str, value: Any) -> str:
    if not isinstance(value, str):
        raise Stop(Status.ROW, f"{where}: {name}: it is neither a text nor a number")
    return value.removesuffix(MIDNIGHT)
