"""Reading a file, and writing over one: beside it first, and then renamed, so that it is whole
at each moment.
"""

from __future__ import annotations

import os
from collections.abc import Mapping
from pathlib import Path

from .program import Status, Stop, reason_of


def read_file(path: str | Path) -> bytes:
    """The bytes of a file; one that is not read ends the command."""
    try:
        return Path(path).read_bytes()
    except (OSError, ValueError) as error:
        raise Stop(Status.UNREAD, f"{path}: {reason_of(error)}") from error


def replace(path: Path, data: bytes) -> None:
    """Puts these bytes in the place of a file, which keeps its mode. A link stays a link."""
    import tempfile

    target = path.resolve()
    try:
        handle, name = tempfile.mkstemp(dir=target.parent, prefix=f".{target.name}.")
        try:
            with open(handle, "wb") as file:
                file.write(data)
            os.chmod(name, target.stat().st_mode & 0o7777)
            os.replace(name, target)
        except BaseException:
            os.unlink(name)
            raise
    except OSError as error:
        raise Stop(Status.NOT_WRITTEN, f"{path} was not written: {reason_of(error)}") from error


def refuse_old(path: Path) -> None:
    """Ends the command if a file or a folder is there."""
    if os.path.lexists(path):
        raise Stop(Status.NOT_WRITTEN, f"{path} is there already, and is not written over")


def create(path: Path, data: bytes) -> None:
    """Writes a new file, whole or not at all. One that is there stays as it is, and ends the
    command.
    """
    import tempfile

    refuse_old(path)
    try:
        handle, name = tempfile.mkstemp(dir=path.absolute().parent, prefix=f".{path.name}.")
        try:
            with open(handle, "wb") as file:
                file.write(data)
            os.chmod(name, 0o666 & ~mask())
            os.link(name, path)
        finally:
            os.unlink(name)
    except FileExistsError as error:
        raise Stop(
            Status.NOT_WRITTEN, f"{path} is there already, and is not written over"
        ) from error
    except (OSError, ValueError) as error:
        raise Stop(Status.NOT_WRITTEN, f"{path} was not written: {reason_of(error)}") from error


def new_folder(path: Path, contents: Mapping[str, bytes], room: Path | None = None) -> None:
    """Makes a folder that was not there, with files by their names, which may be in folders of it;
    whole at once.

    It is made in a room, which is where it is to be unless that is named, and renamed.
    """
    import shutil
    import tempfile

    refuse_old(path)
    try:
        beside = Path(tempfile.mkdtemp(dir=room or path.absolute().parent, prefix=f".{path.name}."))
        try:
            for name, data in contents.items():
                (beside / name).parent.mkdir(parents=True, exist_ok=True)
                (beside / name).write_bytes(data)
            beside.chmod(0o777 & ~mask())
            os.rename(beside, path)
        except BaseException:
            shutil.rmtree(beside, ignore_errors=True)
            raise
    except OSError as error:
        raise Stop(Status.NOT_WRITTEN, f"{path} was not written: {reason_of(error)}") from error


def mask() -> int:
    """The mask of this process for the modes of new files, which can be read only by setting it."""
    found = os.umask(0o077)
    os.umask(found)
    return found
