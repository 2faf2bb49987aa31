"""Makes the library of the crate `tilugba_c`: one object, whose names are those of include/tilugba.h alone, as libtilugba.a and
libtilugba.so.

It fails where the library asks the system for more than six functions, or has a variable, which threads would share. The file
libtilugba.made beside them says what they were made of: the checksums of the texts and of both files, and whether they were proved.
"""
from __future__ import annotations

import contextlib
import shutil
import subprocess
import tempfile
from collections.abc import Iterable, Iterator
from pathlib import Path

from . import constants, kept
from .compiling import Compiling, must_run, run, telling
from .sources import Sources, Stop, say, sum_of
from .toolchain import Toolchain

CRATE = "tilugba_c"
EXPORTS = {"tilugba_abi", "tilugba_run"}
IMPORTS = {"free", "malloc", "memcpy", "memmove", "memset", "realloc"}
FILES = ("libtilugba.a", "libtilugba.so")
MADE = "libtilugba.made"
TOOLS = ("ar", "gcc", "ld", "nm", "objcopy", "objdump", "readelf")
# The three functions of the toolchain have a byte: what is told as the place of refused memory, and
# which nobody reads or writes. It takes as many as an address.
LEFT_OPEN = 8
# A static library has no main function, and `rt try` takes no crate without one: this one reaches both exports.
MAIN = """
fn main(rt: HostRuntime) {
    let mut count = tilugba_abi() as usize;
    tilugba_run(rt.alloc(), &[], &[], &mut [], &mut count);
}
"""
VERSIONS = "{ global: tilugba_*; local: *; };\n"
# No start files: the library has nothing to begin and nothing to end.
SHARED = """-shared -nostartfiles -s -Wl,-soname,libtilugba.so -Wl,--version-script=exports.map -Wl,--gc-sections
-Wl,-z,relro,-z,now,-z,noexecstack,--no-undefined""".split()


class CompilingLibrary(Compiling):
    """The library that is compiled with nothing proved."""

    crate = CRATE

    def __init__(self, tools: Toolchain, repository: Path, room: Path):
        super().__init__(tools, repository, room)
        text = (repository / f"crates/{CRATE}/src/lib.rt").read_text(encoding="utf-8")
        (room / "src").mkdir()
        (room / "src/main.rt").write_text(text + MAIN, encoding="utf-8")
        self.source = str(room / "src/main.rt")

    def edited(self, lines: Iterable[str]) -> Iterator[str]:
        """The module without its main function, and with the exports under their own names."""
        is_main = False
        for line in lines:
            is_main = line.startswith("define i32 @main(") or is_main
            if not is_main and not line.startswith("declare i64 @__sysv_signal("):
                yield exported(line)
            is_main = is_main and line != "}\n"


def exported(line: str) -> str:
    for name in EXPORTS:
        inner = f'@"{CRATE}::{name}"'
        if inner in line:
            line = (line.replace("define internal ", "define ") if f"{inner}(" in line else line).replace(inner, f"@{name}")
    return line


def build(tools: Toolchain, repository: Path, outs: dict[str, Path], *, only_kept: bool = False) -> None:
    """Writes the library of the proved crate as each of these compilers makes it, `llvm` or `rattle`, into the folder that is named with it.
    Raises NotKept if only what the gate has kept may be taken, and that is not enough."""
    look_for_tools()
    texts = Sources(repository, CRATE).sum()
    with over_proved(tools, repository, only_kept) as top:
        for backend, out in outs.items():
            with tempfile.TemporaryDirectory(prefix="tilugba-") as room:
                archive = archive_by(backend, top)
                objects = constants.closed(archive, Path(room)) if backend == "rattle" else archive
                put(tools, objects, out, f"proved, and compiled by {backend}", texts)
    refuse_if_changed(repository, texts)


def build_unproved(tools: Toolchain, repository: Path, out: Path) -> None:
    """Writes the library that is compiled with nothing proved into a folder."""
    look_for_tools()
    texts = Sources(repository, CRATE).sum()
    with tempfile.TemporaryDirectory(prefix="tilugba-") as room, telling():
        CompilingLibrary(tools, repository, Path(room)).compile_module()
        refuse_if_changed(repository, texts)
        put(tools, Path(room, "plain.o"), out, "compiled with nothing proved", texts)


def look_for_tools() -> None:
    for it in TOOLS:
        if not shutil.which(it):
            raise Stop(f"there is no {it} in the PATH: install gcc and binutils")


@contextlib.contextmanager
def over_proved(tools: Toolchain, repository: Path, only_kept: bool) -> Iterator[Path]:
    """Where `rt lib` has only the crate itself to prove: a copy with the libraries that a gate on this machine has proved of the same texts.
    If they are not all kept, it is this tree, in which what is not proved yet is proved first."""
    with contextlib.ExitStack() as ending:
        try:
            top = ending.enter_context(kept.copy_over_kept(tools, repository, CRATE))
            say(f"the libraries below {CRATE} are those that the gate has proved; it is proved over them and compiled, in some minutes")
        except kept.NotKept as why:
            if only_kept:
                raise
            top = repository
            say(f"{why}, so what is not proved yet is proved first, crate by crate, which takes hours from nothing")
        yield top


def archive_by(backend: str, top: Path) -> Path:
    """The archive of the crate by a compiler. What is proved is kept there for the next one."""
    words, archive = ["rt", "lib", "--backend", backend], top / f"crates/{CRATE}/out/lib{CRATE}.a"
    archive.unlink(missing_ok=True)
    done = run(words, cwd=top / "crates" / CRATE)
    if done.returncode or not archive.is_file():
        last = (done.stdout.strip().splitlines() or ["it does not say why"])[-1]
        raise Stop(f"the crate {CRATE} was not proved or not compiled ({last}): `{' '.join(words)}` in crates/{CRATE} says more")
    return archive


def refuse_if_changed(repository: Path, texts: str) -> None:
    if Sources(repository, CRATE).sum() != texts:
        raise Stop("the sources have changed meanwhile: call this again")


def put(tools: Toolchain, objects: Path, out: Path, made: str, texts: str) -> None:
    """Links the objects, and writes libtilugba.a, libtilugba.so and their record into a folder, each of which replaces another by one rename."""
    with tempfile.TemporaryDirectory(prefix="tilugba-") as place:
        room = Path(place)
        link(tools.kit, objects, room)
        told = {"sources": texts, "toolchain": tools.name, "made": made, **{it: sum_of(room / it) for it in FILES}}
        (room / MADE).write_text("".join(f"{name}: {text}\n" for name, text in told.items()), encoding="utf-8")
        out.mkdir(parents=True, exist_ok=True)
        # The record comes last, so that one that agrees with the files is of them.
        for it in (*FILES, MADE):
            new = out / f"{it}.new"
            shutil.copyfile(room / it, new)
            new.chmod(0o755 if it.endswith(".so") else 0o644)
            new.rename(out / it)


def link(kit: Path, objects: Path, room: Path) -> None:
    """Makes both files of the library in the room, and looks at what they ask for and offer."""
    here = {"cwd": room}
    refuse_variables(objects)
    # Quotients of numbers of 128 bits are functions of the compiler.
    of_compiler = subprocess.run(["gcc", "-print-libgcc-file-name"], capture_output=True, text=True, check=True).stdout.strip()
    whole = ["--whole-archive", str(objects), "--no-whole-archive", str(kit / "c/liblibc_c.a"), of_compiler]
    must_run(["ld", "-r", "-o", "tilugba.o", *whole], **here)
    # These, and the three functions of the toolchain that call malloc, realloc and free, are the library's own affair.
    must_run(["objcopy", "--wildcard", "--keep-global-symbol=tilugba_*", "tilugba.o"], **here)
    (room / "libtilugba.a").unlink(missing_ok=True)
    must_run(["ar", "rcsD", "libtilugba.a", "tilugba.o"], **here)
    (room / "exports.map").write_text(VERSIONS, encoding="ascii")
    must_run(["gcc", *SHARED, "-o", "libtilugba.so", "tilugba.o"], **here)
    if constants.left_open(room / "libtilugba.so") > LEFT_OPEN:
        raise Stop("the library can be written to once it is loaded: look at the sections of libtilugba.so behind GNU_RELRO")
    hold("imports", names(room / "libtilugba.so", "--undefined-only"), IMPORTS)
    hold("exports", names(room / "libtilugba.so", "--defined-only"), EXPORTS)
    hold("imports of the archive", names(room / "tilugba.o", "--undefined-only", dynamic=False), IMPORTS)


def names(file: Path, which: str, dynamic: bool = True) -> set[str]:
    words = ["nm", "--format=posix", which, *(["-D"] if dynamic else ["-g"]), str(file)]
    said = subprocess.run(words, capture_output=True, text=True, check=True).stdout
    return {line.split()[0].partition("@")[0] for line in said.splitlines()}


def hold(title: str, found: set[str], allowed: set[str]) -> None:
    """Stops if a name is there that should not be; each export must be."""
    strange = sorted(found - allowed if allowed is IMPORTS else found ^ allowed)
    if strange:
        raise Stop(f"the {title} of the library are not {', '.join(sorted(allowed))}: look at {', '.join(strange)}")


def refuse_variables(file: Path) -> None:
    """A section that can be written to holds a variable; what only the loader writes to is none. The
    toolchain's three functions are not looked at here."""
    said = constants.said_by("readelf", "-SW", str(file))
    for name, _, size, flags in constants.SECTION.findall(said):
        is_open = "W" in flags or "T" in flags
        if int(size, 16) and is_open and not name.startswith(constants.CLOSED):
            raise Stop(f"{constants.SHARED}: look at section {name}")
