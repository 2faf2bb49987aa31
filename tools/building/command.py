"""How a script ends that builds: whatever goes wrong is one line on standard error, and the status 70, which the program never has."""
from __future__ import annotations

import signal
import sys
from collections.abc import Callable
from types import FrameType

from .sources import Stop, say

FAILED = 70
SIGNALS = (signal.SIGINT, signal.SIGTERM, signal.SIGHUP)


class Interrupted(BaseException):
    """One of the signals came that end a process."""


def interrupt(_number: int, _frame: FrameType | None) -> None:
    # What is put back on the way out is not interrupted once more.
    for it in SIGNALS:
        signal.signal(it, signal.SIG_IGN)
    raise Interrupted


def ends(body: Callable[[], int], begun: str) -> int:
    """Runs the body of a script, and returns its status. `begun` is what was begun, for the line of an interrupt."""
    sys.dont_write_bytecode = True
    for it in SIGNALS:
        if signal.getsignal(it) is not signal.SIG_IGN:
            signal.signal(it, interrupt)
    try:
        return body()
    except Stop as stop:
        say(f"{begun}: {stop}")
    except Interrupted:
        say(f"{begun}: it was interrupted, and what was there is as it was; the next call goes on")
    except OSError as error:
        place = f"{error.filename2 or error.filename}: " if error.filename else ""
        say(f"{begun}: {place}{error.strerror or error}; mend that, and call this again")
    except Exception as error:
        say(f"{begun}, by a fault of this script: {type(error).__name__}: {error}")
    return FAILED
