"""Builds the wheel with the standard library alone (PEP 517), so that an install needs no network:
the package and the library in it.

The library is the one that TILUGBA_LIBRARY names, or built/libtilugba.so of the repository. The
same files give the same wheel.
"""

from __future__ import annotations

import base64
import hashlib
import io
import os
import stat
import zipfile
from pathlib import Path

HERE = Path(__file__).resolve().parent
TOP = HERE.parent
NAME = "tilugba"
LIBRARY = "libtilugba.so"
# The library asks for glibc 2.14. One wheel is for every Python.
TAG = "py3-none-manylinux_2_17_x86_64"
# Each file has one date.
DATE = (2026, 1, 1, 0, 0, 0)

Files = dict[str, bytes]


def version() -> str:
    return (TOP / "VERSION").read_text(encoding="ascii").strip()


def metadata() -> bytes:
    lines = [
        *("Metadata-Version: 2.1", f"Name: {NAME}", f"Version: {version()}"),
        "Summary: Financial contracts between parties, by a proved library",
        *(
            "License: MIT",
            "Requires-Python: >=3.11",
            "Provides-Extra: pandas",
            'Requires-Dist: pandas; extra == "pandas"',
        ),
    ]
    return "".join(f"{line}\n" for line in lines).encode()


def named_library() -> bytes:
    path = Path(os.environ.get("TILUGBA_LIBRARY") or TOP / "built" / LIBRARY)
    try:
        return path.read_bytes()
    except OSError as error:
        raise SystemExit(
            f"{path} is not read ({error.strerror}): tools/build-library makes it, or name it by "
            "TILUGBA_LIBRARY"
        ) from error


def files(library: bytes) -> Files:
    """The files of the wheel with this library, without the list of them."""
    package = sorted(
        it
        for it in (HERE / NAME).rglob("*")
        if it.is_file() and "__pycache__" not in it.parts and it.suffix != ".so"
    )
    found = {str(it.relative_to(HERE)): it.read_bytes() for it in package}
    found[f"{NAME}/{LIBRARY}"] = library
    info = f"{NAME}-{version()}.dist-info"
    found[f"{info}/LICENSE"] = (TOP / "LICENSE").read_bytes()
    found[f"{info}/METADATA"] = metadata()
    found[
        f"{info}/WHEEL"
    ] = f"Wheel-Version: 1.0\nGenerator: {NAME}\nRoot-Is-Purelib: false\nTag: {TAG}\n".encode()
    found[f"{info}/entry_points.txt"] = b"[console_scripts]\ntilugba-desk = tilugba.cli:main\n"
    return found


def with_record(found: Files) -> Files:
    """The files with the list of them, each with its checksum."""
    name = f"{NAME}-{version()}.dist-info/RECORD"
    sums = {
        it: base64.urlsafe_b64encode(hashlib.sha256(data).digest()).rstrip(b"=").decode()
        for it, data in found.items()
    }
    rows = "".join(f"{it},sha256={sums[it]},{len(data)}\n" for it, data in found.items())
    return found | {name: f"{rows}{name},,\n".encode()}


def get_requires_for_build_wheel(config_settings: object = None) -> list[str]:
    """pip asks for this before it builds."""
    return []


def build_wheel(
    folder: str, config_settings: object = None, metadata_directory: str | None = None
) -> str:
    """Writes the wheel into a folder, and returns its name."""
    (Path(folder) / wheel_name()).write_bytes(wheel(named_library()))
    return wheel_name()


def wheel_name() -> str:
    return f"{NAME}-{version()}-{TAG}.whl"


def wheel(library: bytes) -> bytes:
    """The wheel with this library. The same files give the same bytes."""
    room = io.BytesIO()
    with zipfile.ZipFile(room, "w", zipfile.ZIP_DEFLATED) as out:
        for name, data in with_record(files(library)).items():
            entry = zipfile.ZipInfo(name, DATE)
            entry.external_attr = (stat.S_IFREG | (0o755 if name.endswith(".so") else 0o644)) << 16
            entry.compress_type = zipfile.ZIP_DEFLATED
            out.writestr(entry, data)
    return room.getvalue()
