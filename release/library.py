"""The library of a release: its files with their record, which says what they were made of, and
the wheel of Python that has it."""
import os
import sys

from contents import TOP, Entry, Files, Refusal, read
from notices import sum_of, sum_of_sources

sys.path.insert(0, os.path.join(TOP, "desk"))
import wheel_backend

CRATE, RECORD, SHARED = "tilugba_c", "libtilugba.made", "libtilugba.so"
NAMES = ("libtilugba.a", SHARED)
CURE = "tools/build-library proves and builds it"


def files_in(folder: str) -> Files:
    """The files of the library in a folder, if they are those of its record."""
    try:
        found = {name: read(os.path.join(folder, name)) for name in (*NAMES, RECORD)}
    except OSError as error:
        why = f"there is no library with its record in {folder} ({error.filename}); {CURE}"
        raise Refusal(why) from error
    told = told_by(found[RECORD])
    changed = [name for name in NAMES if told.get(name) != sum_of(found[name])]
    if changed:
        raise Refusal(f"{os.path.join(folder, changed[0])} is not as it was built; {CURE} anew")
    return {name: Entry(data) for name, data in found.items()}


def told_by(record: bytes) -> dict[str, str]:
    """What a record says, by the first word of each line."""
    return dict(line.split(": ", 1) for line in record.decode().splitlines() if ": " in line)


def proved_library() -> Files:
    """The library that was proved and built of the sources; the reason if there is none."""
    files = files_in("built")
    told = told_by(files[RECORD].data)
    if told.get("sources") != sum_of_sources(CRATE):
        raise Refusal(f"built/{SHARED} is the library of other sources; {CURE}")
    if not told.get("made", "").startswith("proved"):
        raise Refusal(f"built/{SHARED} was compiled with nothing proved; {CURE}")
    return files


def wheel(files: Files) -> Files:
    """The wheel of Python with this library, by its name."""
    return {wheel_backend.wheel_name(): Entry(wheel_backend.wheel(files[SHARED].data))}
