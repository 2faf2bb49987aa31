"""Builds the library of the crate `tilugba_c` for other processors: as a module of WebAssembly, and
for aarch64.

Either begins with the module of LLVM that the toolchain makes of the crate on x86-64: of the proved
crate, where a folder of the toolchain's tools keeps it, or with nothing proved, as in `library`.
Which of its lines change, and what it may have, is in `retarget`.
"""
from __future__ import annotations

import contextlib
import os
import re
import shutil
import subprocess
import sys
from collections.abc import Iterator
from pathlib import Path

from . import library, retarget, toolchain, wasm
from .compiling import AS_TEXT, hints, must_run, run, without_checks
from .retarget import AARCH64, OPTIONS, WASM64, Target
from .sources import Sources, Stop
from .toolchain import Toolchain

TOP = Path(__file__).resolve().parents[2]
MACHINES = TOP / "machines"
# What the deepest code texts touch of it is near 1 MiB; include/tilugba.h promises twice that too.
STACK = 2 << 20
EXPORTS = {"memory", "page_free", "page_take", "tilugba_run"}
# The linker's own, a number.
OF_LINKER = {"__heap_base"}
FEATURES = """--enable-memory64 --enable-bulk-memory --enable-multivalue --enable-sign-ext
--enable-nontrapping-float-to-int --enable-mutable-globals""".split()
# What the toolchain says of a crate that it has proved.
PROVED = "logic=proved "
# A compiler that keeps the module, and then goes on with the toolchain's own.
KEEPER = """#!/bin/sh
[ ! -f module.bc ] || cp module.bc "{room}/module.bc"
exec "{clang}" "$@"
"""
# The parts of an archive or a program of aarch64 are made by these of Debian.
CROSS = "aarch64-linux-gnu-"
FLAGS = ["-std=c11", "-O2", "-Wall", "-Wextra", "-Werror", "-fPIC"]
# The program of C over the library: what the proved program does with files and output.
PROGRAM = TOP / "tests/embedding_program.c"


class Elsewhere:
    """The library for other processors, made in a room of its own."""

    def __init__(self, tools: Toolchain, repository: Path, room: Path):
        self.tools, self.repository, self.room = tools, repository, room
        # Where the libraries below the crate are proved, once they are.
        self.proved: Path | None = None
        self.kit = tools.kit
        self.clang = str(self.kit / "toolchain/bin/clang")
        self.module = room / "plain.ll"

    def must_run(self, words: list[str]) -> None:
        must_run(words, cwd=self.room)

    # ---- The module

    def keep_unproved(self) -> None:
        """Leaves the module of the sources, with nothing proved."""
        making = library.CompilingLibrary(self.tools, self.repository, self.room)
        making.keep_module()
        self.must_run([self.clang, *AS_TEXT])
        found = hints(making.sources())
        with open(self.room / "checked.ll", encoding="utf-8") as checked:
            with open(self.module, "w", encoding="utf-8") as plain:
                plain.writelines(making.edited(without_checks(checked, found)))

    @contextlib.contextmanager
    def over_proved(self, only_kept: bool) -> Iterator[None]:
        """Has all libraries below the crate proved, or takes those that the gate has kept, for as
        long as something is made over them. Raises NotKept if only kept ones may be taken, and one
        is not."""
        texts = Sources(self.repository, library.CRATE).sum()
        with library.over_proved(self.tools, self.repository, only_kept) as top:
            if top == self.repository:
                library.archive_by("llvm", top)
            self.proved = top
            yield
        library.refuse_if_changed(self.repository, texts)

    def keep_proved(self) -> None:
        """Leaves the module that is compiled of the proved crate."""
        script = KEEPER.format(room=self.room, clang=self.clang)
        self.build(toolchain.tools_with_compiler(self.kit, self.room / "tools", script), "proved.a")
        if not (self.room / "module.bc").is_file():
            raise Stop(f"the toolchain builds {library.CRATE} without a module that can be kept")
        as_text = [it if it != "checked.ll" else self.module.name for it in AS_TEXT]
        self.must_run([self.clang, *as_text])

    def build(self, tools: Path, archive: str, *more: str) -> None:
        """Has the crate proved and built, as `rt lib` has it, but with tools of one's own or for
        another processor."""
        top = self.proved
        assert top is not None
        sys.path.insert(0, str(self.kit / "bin"))
        import rtlib

        with open(os.devnull, "w", encoding="utf-8") as nothing:
            crate = next(it for it in rtlib.crates_below(str(top)) if it.name == library.CRATE)
            crate.out = nothing
            words = [rtlib.RATTLE, "build", *crate.words(list(more)), "--toolchain", str(tools)]
        words += ["--backend", "llvm", *rtlib.KEPT, "-o", str(self.room / archive)]
        done = run(words, cwd=top / "crates" / library.CRATE)
        if done.returncode or PROVED not in done.stdout:
            raise Stop(f"the toolchain does not prove and build {library.CRATE}: {last(done)}")

    def compile_for(self, target: Target, name: str) -> Path:
        """Compiles the module for a processor, as the toolchain compiles for it."""
        text = self.room / f"{name}.ll"
        with open(self.module, encoding="utf-8") as plain, open(text, "w", encoding="utf-8") as to:
            to.writelines(retarget.retargeted(plain, target))
        words = [self.clang, f"--sysroot={self.kit}/toolchain", f"--target={target.triple}"]
        self.must_run([*words, *target.words, *OPTIONS, text.name, "-o", f"{name}.o"])
        text.unlink()
        return self.room / f"{name}.o"

    # ---- WebAssembly

    def webassembly(self) -> tuple[Path, Path]:
        """The module of WebAssembly with addresses of 64 bits, and the same with those of 32."""
        if not shutil.which("wasm-opt"):
            raise Stop("there is no wasm-opt in the PATH: install binaryen")
        self.compile_for(WASM64, "wasm64")
        heap = (
            f"--target={WASM64.triple} -mcpu=lime1 -O2 -ffreestanding -fwrapv -Wall -Wextra -Werror"
        )
        self.must_run(
            [self.clang, *heap.split(), "-c", str(MACHINES / "heap_wasm.c"), "-o", "heap.o"]
        )
        archive = [f"{self.kit}/toolchain/bin/llvm-ar", "rcD", "--format=gnu", "wasm64.a"]
        self.must_run([*archive, "wasm64.o", "heap.o"])
        link = [f"{self.kit}/bin/rattle-link", "--target", WASM64.triple, "--toolchain"]
        link += [f"{self.kit}/toolchain", "--stack", str(STACK), "-o", "wide.wasm", "wasm64.a"]
        self.must_run(link)
        wide, small = self.room / "table.wasm", self.room / "small.wasm"
        wide.write_bytes(wasm.with_small_table((self.room / "wide.wasm").read_bytes()))
        self.must_run(
            ["wasm-opt", *FEATURES, "--memory64-lowering", "table.wasm", "-o", small.name]
        )
        for it in (wide, small):
            hold(it.read_bytes())
        return wide, small

    # ---- aarch64

    def objects_of_aarch64(self, is_proved: bool) -> str:
        """The library's own code for aarch64. The proved crate is lowered and compiled for it by
        the toolchain itself, which holds that code to checks of its own."""
        if not is_proved:
            return self.compile_for(AARCH64, "aarch64").name
        self.build(self.kit / "toolchain", "aarch64.a", "--target", AARCH64.triple)
        return "aarch64.a"

    def aarch64(self, is_proved: bool) -> tuple[Path, Path]:
        """The archive of the library for aarch64, and a program of C over it."""
        for it in ("gcc", "ar", "ld", "objcopy", "nm"):
            if not shutil.which(f"{CROSS}{it}"):
                raise Stop(f"there is no {CROSS}{it} in the PATH: install gcc-aarch64-linux-gnu")
        objects = self.objects_of_aarch64(is_proved)
        heap = str(MACHINES / "heap_malloc.c")
        self.must_run([f"{CROSS}gcc", *FLAGS, "-c", heap, "-o", "heap64.o"])
        name = [f"{CROSS}gcc", "-print-libgcc-file-name"]
        said = subprocess.run(name, capture_output=True, text=True, check=True)
        whole = ["--whole-archive", objects, "--no-whole-archive", "heap64.o", said.stdout.strip()]
        self.must_run([f"{CROSS}ld", "-r", "-o", "tilugba.o", *whole])
        keep = ["--wildcard", "--keep-global-symbol=tilugba_*"]
        self.must_run([f"{CROSS}objcopy", *keep, "tilugba.o"])
        self.must_run([f"{CROSS}ar", "rcsD", "libtilugba.a", "tilugba.o"])
        library.hold("imports", undefined(self.room / "tilugba.o"), library.IMPORTS)
        words = [f"{CROSS}gcc", *FLAGS, f"-I{self.repository}/include", str(PROGRAM)]
        words += ["libtilugba.a", "-static", "-s", "-pthread", "-Wl,--gc-sections"]
        self.must_run([*words, "-Wl,--build-id=none", "-o", "program"])
        return self.room / "libtilugba.a", self.room / "program"


def last(done: subprocess.CompletedProcess[str]) -> str:
    return (done.stdout.strip().splitlines() or ["it does not say why"])[-1]


def undefined(file: Path) -> set[str]:
    words = [f"{CROSS}nm", "--format=posix", "--undefined-only", str(file)]
    said = subprocess.run(words, capture_output=True, text=True, check=True).stdout
    return {re.split(r"\s", line)[0] for line in said.splitlines()}


def hold(module: bytes) -> None:
    """Stops if the module asks its host for anything, or offers it other things than it should."""
    asked = wasm.imports(module)
    if asked:
        raise Stop(f"the WebAssembly module imports {asked} things of its host, and should none")
    offered = wasm.exports(module) - OF_LINKER
    if offered != EXPORTS:
        strange = ", ".join(sorted(offered ^ EXPORTS))
        raise Stop(f"the exports of the WebAssembly module are not those of the list: {strange}")
