"""Reads what a WebAssembly module asks of its host and offers it, and changes single bytes of it.

The binary format is that of the WebAssembly Core Specification: a magic number, and then sections,
each a byte of its kind, its length, and its contents.
"""
from __future__ import annotations

from collections.abc import Iterator
from dataclasses import dataclass

from .sources import Stop

MAGIC = b"\0asm\1\0\0\0"
IMPORTS, TABLES, MEMORIES, EXPORTS = 2, 4, 5, 7
# Flags of the limits of a table or a memory.
HAS_MOST, IS_WIDE = 1, 4
FUNCTION_TABLE = 0x70


def number(data: bytes, at: int) -> tuple[int, int]:
    """The number of seven bits a byte (LEB128) that stands there, and the place behind it."""
    value = shift = 0
    while True:
        byte = data[at]
        value |= (byte & 127) << shift
        shift, at = shift + 7, at + 1
        if byte < 128:
            return value, at


def as_number(value: int) -> bytes:
    found = bytearray()
    while value > 127:
        found.append(value & 127 | 128)
        value >>= 7
    return bytes([*found, value])


def text(data: bytes, at: int) -> tuple[str, int]:
    size, at = number(data, at)
    return data[at : at + size].decode("utf-8"), at + size


@dataclass(frozen=True)
class Section:
    """A section: its kind, and where it and its contents lie in the module."""

    kind: int
    begins: int
    at: int
    end: int


def sections(data: bytes) -> Iterator[Section]:
    """The sections of a module."""
    if not data.startswith(MAGIC):
        raise Stop("this is no WebAssembly module of version 1")
    at = len(MAGIC)
    while at < len(data):
        begins, kind = at, data[at]
        size, at = number(data, at + 1)
        yield Section(kind, begins, at, at + size)
        at += size


def section(data: bytes, kind: int) -> Section | None:
    return next((it for it in sections(data) if it.kind == kind), None)


def imports(data: bytes) -> int:
    """How many things the module asks of its host."""
    found = section(data, IMPORTS)
    return number(data, found.at)[0] if found else 0


def exports(data: bytes) -> set[str]:
    """The names that the module offers its host."""
    found = section(data, EXPORTS)
    if not found:
        return set()
    count, at = number(data, found.at)
    names = set()
    for _ in range(count):
        name, at = text(data, at)
        names.add(name)
        _, at = number(data, at + 1)
    return names


def with_small_table(data: bytes) -> bytes:
    """The module with its one table, which no instruction uses, as one of 32 bits: the toolchain's
    linker marks it as one of 64 bits, which older engines and binaryen 108 do not know."""
    found = section(data, TABLES)
    if not found:
        return data
    if data[found.at : found.at + 2] != bytes([1, FUNCTION_TABLE]):
        raise Stop("the module has other tables than one of functions")
    at = found.at + 2
    return data[:at] + bytes([data[at] & ~IS_WIDE]) + data[at + 1 :]


def with_most_memory(data: bytes, pages: int) -> bytes:
    """The module with a memory that cannot grow beyond so many pages of 65,536 bytes, for tests."""
    found = section(data, MEMORIES)
    if not found or data[found.at] != 1 or data[found.at + 1] & HAS_MOST:
        raise Stop("the module has not just one memory without a limit")
    least, _ = number(data, found.at + 2)
    limits = bytes([1, data[found.at + 1] | HAS_MOST]) + as_number(least) + as_number(pages)
    changed = bytes([MEMORIES]) + as_number(len(limits)) + limits
    return data[: found.begins] + changed + data[found.end :]
