"""Numbers among the words of a subcommand."""

from __future__ import annotations

import argparse
from collections.abc import Callable

MOST_JOBS = 9_999


def count_up_to(most: int) -> Callable[[str], int]:
    """What reads a number from 1 to `most` for argparse."""

    def count(text: str) -> int:
        if not (text.isascii() and text.isdigit() and len(text) < 10 and 0 < int(text) <= most):
            raise argparse.ArgumentTypeError(f"{text} is not a number from 1 to {most:,}")
        return int(text)

    return count


jobs = count_up_to(MOST_JOBS)
