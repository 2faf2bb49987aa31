"""Makes the library's module of x86-64 one for another processor.

The toolchain lowers the proved functions to one module of LLVM. What is in it beside addresses of
64 bits, in bytes, and numbers of whole bytes, is listed here: its externals, its intrinsics and its
attributes. A module with anything else is refused. So few lines change: the layout of data, the
name of the target, and the attributes that are those of x86-64.
"""
from __future__ import annotations

import re
from collections.abc import Iterable, Iterator
from dataclasses import dataclass

from .sources import Stop

EXTERNALS = {"rattle_alloc", "rattle_dealloc", "rattle_realloc"}
INTRINSICS = {
    "llvm.arithmetic.fence.f64",
    "llvm.ctlz.i32",
    "llvm.ctlz.i64",
    "llvm.cttz.i32",
    "llvm.cttz.i64",
    "llvm.memcpy.p0.p0.i64",
    "llvm.memmove.p0.p0.i64",
    "llvm.memset.p0.i64",
    "llvm.trap",
}
ATTRIBUTES = set(
    """alwaysinline cold inlinehint nobuiltin nocallback nocreateundeforpoison nofree noinline
    noreturn nosync nounwind speculatable willreturn""".split()
)
PROBES = '"probe-stack"="inline-asm" "stack-probe-size"="3072"'
OF_X86 = f'{PROBES} "target-cpu"="x86-64-v2"'
LAYOUT_OF_X86 = "e-m:e-p270:32:32-p271:32:32-p272:64:64-i64:64-i128:128-f80:128-n8:16:32:64-S128"
MEMORY = re.compile(r"memory\([^)]*\)")
DECLARED = re.compile(r'^declare .*?@("[^"]*"|[\w.$]+)\(')
GROUP = re.compile(r"^attributes #\d+ = \{(.*)\}\n$")


@dataclass(frozen=True)
class Target:
    """A processor: its name for clang, its layout of data, what stands for the attributes of
    x86-64, and the words that the toolchain gives its own clang for it."""

    triple: str
    layout: str
    attributes: str
    words: tuple[str, ...]


WASM64 = Target(
    "wasm64-unknown-unknown",
    "e-m:e-p:64:64-p10:8:8-p20:8:8-i64:64-i128:128-n32:64-S128-ni:1:10:20",
    "",
    ("-mcpu=lime1", "-mllvm", "-expand-div-rem-bits=64", "-mllvm", "-expand-fp-convert-bits=64"),
)
AARCH64 = Target(
    "aarch64-unknown-linux-gnu",
    "e-m:e-p270:32:32-p271:32:32-p272:64:64-i8:8:32-i16:16:32-i64:64-i128:128-n32:64-S128-Fn32",
    PROBES,
    (
        *("-march=armv8-a", "-fPIC", "-mllvm", "-aarch64-load-store-renaming=false"),
        *("-mllvm", "-mergefunc-use-aliases"),
    ),
)
# The words that the toolchain gives its clang for each of them.
OPTIONS = """-ffunction-sections -fdata-sections -mllvm -trap-unreachable
-mllvm -disable-machine-licm -mllvm -disable-postra-machine-licm -mllvm -sink-common-insts=false
--no-default-config
-no-canonical-prefixes -fintegrated-cc1 -fno-crash-diagnostics -c -x ir -O3
-Xclang -fmerge-functions""".split()


def refuse(what: str, found: str) -> None:
    raise Stop(
        f"the library's module has {what}, {found}: "
        "tools/building/retarget.py lists what it may have"
    )


def look_at_declared(line: str) -> None:
    """Each function that the module asks for is one of the lists."""
    found = DECLARED.match(line)
    name = found[1].strip('"') if found else line.strip()
    if name.startswith("llvm."):
        if name not in INTRINSICS:
            refuse("a further intrinsic", name)
    elif name not in EXTERNALS:
        refuse("a further external", name)


def retargeted_group(line: str, target: Target) -> str:
    """A list of attributes, with those of the target in the place of those of x86-64."""
    found = GROUP.match(line)
    inside = found[1] if found else line
    left = MEMORY.sub("", inside.replace(OF_X86, "").replace(PROBES, ""))
    strange = sorted(set(left.split()) - ATTRIBUTES)
    if strange:
        refuse("a further attribute", strange[0])
    return line.replace(OF_X86, target.attributes).replace(PROBES, target.attributes)


def retargeted(lines: Iterable[str], target: Target) -> Iterator[str]:
    """The lines of the module for the target. What is on no list is refused."""
    seen = {"layout": 0, "triple": 0, "exports": 0}
    for line in lines:
        if line.startswith("target datalayout"):
            seen["layout"] += 1
            if LAYOUT_OF_X86 not in line:
                refuse("another layout of data", line.split('"')[1])
            line = f'target datalayout = "{target.layout}"\n'
        elif line.startswith("target triple"):
            seen["triple"] += 1
            line = f'target triple = "{target.triple}"\n'
        elif line.startswith("attributes #"):
            line = retargeted_group(line, target)
        elif line.startswith("declare "):
            look_at_declared(line)
        elif line.startswith("module asm") or " asm " in line and " call " in line:
            refuse("inline assembly", line.strip()[:80])
        elif line.startswith("@") and not re.match(r"@\S+ = [\w() ]*\bconstant\b", line):
            refuse("a variable", line.strip()[:80])
        elif line.startswith("define ") and " @tilugba_run(" in line:
            seen["exports"] += not re.match(r"define (internal|private) ", line)
        yield line
    for name, count in seen.items():
        if count != 1:
            refuse(f"not just one line of {name}", str(count))
