"""Archives whose bytes depend on their files alone: tar, and the package of Debian, which is two of them in one."""
import gzip
import hashlib
import io
import lzma
import os
import re
import tarfile
from dataclasses import dataclass

from contents import EXECUTABLE, Entry, Files


def folders_of(paths: list[str]) -> list[str]:
    """The folders that some paths are in."""
    found = set()
    for path in paths:
        while path := os.path.dirname(path):
            found.add(path)
    return sorted(found)


def tar(files: Files, time: int, start: str = "") -> bytes:
    """A tar archive: folders first, then files, each in order, of one time and of root; `start` is before each path."""
    room = io.BytesIO()
    with tarfile.open(fileobj=room, mode="w", format=tarfile.GNU_FORMAT) as archive:
        for path in folders_of(list(files)):
            archive.addfile(member(start + path, EXECUTABLE, time, tarfile.DIRTYPE))
        for path, entry in sorted(files.items()):
            told = member(start + path, entry.mode, time, tarfile.REGTYPE)
            told.size = len(entry.data)
            archive.addfile(told, io.BytesIO(entry.data))
    return room.getvalue()


def member(path: str, mode: int, time: int, kind: bytes) -> tarfile.TarInfo:
    told = tarfile.TarInfo(path)
    told.mode, told.mtime, told.type, told.uname, told.gname = mode, time, kind, "root", "root"
    return told


def tar_gz(files: Files, time: int, folder: str) -> bytes:
    """An archive of a folder."""
    return gzip.compress(tar({f"{folder}/{path}": it for path, it in files.items()}, time), 9, mtime=0)


def ar(members: dict[str, bytes], time: int) -> bytes:
    """An archive in the form of `ar`, which a package of Debian has."""
    parts = [b"!<arch>\n"]
    for name, data in members.items():
        parts += [f"{name:<16}{time:<12}{0:<6}{0:<6}{'100644':<8}{len(data):<10}`\n".encode(), data, b"\n" * (len(data) % 2)]
    return b"".join(parts)


def least_libc(files: Files) -> str:
    """The version of the C library that programs and libraries ask for, with its marks for dpkg; nothing if they ask for none."""
    of_code = b"".join(it.data for it in files.values() if it.data.startswith(b"\x7fELF"))
    found = [(int(major), int(minor)) for major, minor in re.findall(rb"\0GLIBC_(\d+)\.(\d+)", of_code)]
    return " (>= {}.{})".format(*max(found)) if found else ""


@dataclass(frozen=True)
class Processor:
    """What a package is for: its name for Debian and in the name of the archive; whether the program
    asks for the system's C library; what is said of it; and what lintian is told."""

    name: str
    of_archive: str
    has_libc: bool
    said: str
    override: str


X86_64 = Processor(
    "amd64",
    "x86_64-linux",
    True,
    """ What it prints is proved to be what the written rules say.
""",
    "unstripped-binary-or-object",
)
AARCH64 = Processor(
    "arm64",
    "aarch64-linux",
    False,
    """ The library in it is proved before it is compiled. The program of C around
 it is tested on this processor: docs/PROOFS.md says which steps are which.
""",
    "statically-linked-binary",
)


def control(version: str, files: Files, of: Processor = X86_64) -> str:
    size = sum((len(it.data) + 1023) // 1024 for it in files.values())
    depends = f"Depends: libc6{least_libc(files)}\n" if of.has_libc else ""
    return f"""Package: tilugba
Version: {version}
Architecture: {of.name}
Maintainer: Tilugba maintainers <maintainers@users.noreply.tilugba.example>
Installed-Size: {size}
{depends}Recommends: python3 (>= 3.11)
Suggests: gnuplot-nox
Section: utils
Priority: optional
Description: proved manager for financial contracts
 Checks contracts that are written as short texts, says who pays whom, how
 much and when, advances and novates them, and values what is left of them.
{of.said}"""


def sums(files: Files) -> str:
    return "".join(f"{hashlib.md5(it.data).hexdigest()}  {path}\n" for path, it in sorted(files.items()))


def deb(version: str, files: Files, time: int, of: Processor = X86_64) -> bytes:
    """The package of Debian: `files` by their paths from the root."""
    told = {"control": control(version, files, of), "md5sums": sums(files)}
    if any(re.fullmatch(r"usr/lib/[^/]+\.so", path) for path in files):
        # The system's list of libraries is made anew.
        told["triggers"] = "activate-noawait ldconfig\n"
    parts = {
        "debian-binary": b"2.0\n",
        "control.tar.xz": lzma.compress(tar({name: Entry(text.encode()) for name, text in told.items()}, time, "./")),
        "data.tar.xz": lzma.compress(tar(files, time, "./"), preset=9),
    }
    return ar(parts, time)
