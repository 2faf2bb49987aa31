"""The constants of the toolchain's second compiler, `rattle`.

A constant that holds addresses is written to once, by the loader, which fills them in. LLVM puts
such constants into `.data.rel.ro`, a section that is closed to writing from then on. The second
compiler puts them, and the bytes that they point to, into `.data`, which stays open. So the name
of the section does not say whether it holds constants or a variable.

The language says it: a `static` is never written and holds no cell, and there is no thread local.
What was compiled is held to that in two ways. Each instruction that names the section takes an
address in it, and does nothing else there, which is looked at here. And the section gets the name
that LLVM gives it, so that the loader closes it: a write would end the process, and no thread would
see it.
"""
from __future__ import annotations

import os
import re
import subprocess
from collections.abc import Iterator
from pathlib import Path

from .sources import Stop

OPEN, CLOSED, CODE = ".data", ".data.rel.ro", ".text"
SHARED = "the library has variables, which threads would share"
# A name of data or of zeros in a section that stays open, as nm tells it.
OF_DATA = re.compile(r"^(.+) [dDbB] [0-9a-f]+ ", re.M)
# The places of a section that the linker fills in, and a place with what it names.
PLACES = re.compile(r"^RELOCATION RECORDS FOR \[(\S+)\]:\n(.*?)(?:\n\n|\Z)", re.M | re.S)
PLACE = re.compile(r"^([0-9a-f]+) +\w+ +(\S+?)(?:[-+]0x[0-9a-f]+)?$", re.M)
# The bytes before a place in the code that takes an address: `lea` of 64 bits, from here on. They
# are looked at, and not what a disassembler says, which takes constants among the code for code.
LEA = re.compile(rb"[\x48-\x4f]\x8d[\x05\x0d\x15\x1d\x25\x2d\x35\x3d]", re.S)
# A section's name, address, size and flags.
SECTION = re.compile(
    r"^ *\[ *\d+\] (\S+) +\w+ +([0-9a-f]+) +[0-9a-f]+ ([0-9a-f]+) +\d+ +([A-Za-z]*) ", re.M
)
# What the loader closes: its address and its size.
RELRO = re.compile(r"^ *GNU_RELRO +\S+ +0x([0-9a-f]+) +\S+ +\S+ +0x([0-9a-f]+)", re.M)


def closed(objects: Path, room: Path) -> Path:
    """One object of all, in the room, whose `.data` is closed once it is loaded. Stops where an
    instruction does more with it than take an address, or where something in it has a name."""
    whole, code = room / "whole.o", room / "code"
    said_by("ld", "-r", "-o", str(whole), "--whole-archive", str(objects))
    names = OF_DATA.findall(said_by("nm", "--format=posix", str(whole)))
    if names:
        raise Stop(f"{SHARED}: look at {names[0]}")
    said_by("objcopy", "-O", "binary", f"--only-section={CODE}", str(whole), str(code))
    instructions = code.read_bytes()
    for section, at in uses(whole):
        if section != CODE or not LEA.fullmatch(instructions[max(at - 3, 0) : at]):
            raise Stop(f"{SHARED}: look at what is done to {OPEN} at {at:#x} of {section}")
    said_by("objcopy", "--rename-section", f"{OPEN}={CLOSED}", str(whole))
    return whole


def uses(whole: Path) -> Iterator[tuple[str, int]]:
    """Each place outside of the open section that names it: the place's section, and where it is."""
    for section, places in PLACES.findall(said_by("objdump", "-r", str(whole))):
        if section != OPEN:
            for at, target in PLACE.findall(places):
                if target == OPEN:
                    yield section, int(at, 16)


def left_open(shared: Path) -> int:
    """How many bytes of a shared library can be written to once it is loaded."""
    closes = RELRO.search(said_by("readelf", "-lW", str(shared)))
    first, size = (int(it, 16) for it in closes.groups()) if closes else (0, 0)
    found = 0
    for _, address, length, flags in SECTION.findall(said_by("readelf", "-SW", str(shared))):
        at, count = int(address, 16), int(length, 16)
        if "W" in flags and not first <= at <= at + count <= first + size:
            found += count
    return found


def said_by(*words: str) -> str:
    """What a tool prints, in English."""
    how = {"capture_output": True, "text": True, "errors": "replace", "check": False}
    done = subprocess.run(words, env={**os.environ, "LC_ALL": "C"}, **how)
    if done.returncode:
        said = (done.stderr.strip().splitlines() or ["it does not say why"])[-1]
        raise Stop(f"{words[0]} failed: {said}")
    return done.stdout
