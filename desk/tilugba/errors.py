"""What stops a call, as exceptions: a class for each status of the program, with the parts of its
line as attributes.
"""

from __future__ import annotations

import datetime
from collections.abc import Callable

from .days import FIRST_ORDINAL, LAST_ORDINAL
from .program import MEANINGS, Fault, Status
from .texts.reading import Reading


class TilugbaError(Exception):
    """A call gave no answer. `status` is the program's exit status, and `fault` its line, which may
    be empty.
    """

    status: int = Status.DESK

    def __init__(self, fault: str, **parts: object) -> None:
        super().__init__(fault or MEANINGS.get(self.status, f"status {self.status}"))
        self.fault = fault
        self.__dict__.update(parts)

    def __reduce__(self) -> tuple[Callable[..., TilugbaError], tuple[type, dict[str, object]]]:
        return again, (type(self), dict(self.__dict__))


def again(kind: type[TilugbaError], parts: dict[str, object]) -> TilugbaError:
    """An exception that comes out of another process."""
    return kind(**parts)


class Refused(TilugbaError):
    """A contract, or code, is not accepted: `name`, `rule` (sort, time, scale, size or bound),
    `node`.
    """

    status = Status.REFUSED
    name: str
    rule: str
    node: int


class UsageError(TilugbaError, ValueError):
    """No command takes these words."""

    status = Status.USAGE


class ReadError(TilugbaError, OSError):
    """A file cannot be read: `place`, from 1."""

    status = Status.UNREAD
    place: int

    __str__ = Exception.__str__


class TooLong(TilugbaError, ValueError):
    """A text has more than 16,777,216 bytes: `place`."""

    status = Status.TOO_LONG
    place: int


class ParseError(TilugbaError, ValueError):
    """A text does not parse: `kind`, `line` and `column`, both from 1, the column in bytes."""

    status = Status.TEXT
    kind: str
    line: int
    column: int


class RowError(TilugbaError, ValueError):
    """A record of a table is refused: `place` of the table, `record` from 1, `kind`, and of a
    conflict the `earlier` record.
    """

    status = Status.ROW
    place: int
    record: int
    kind: str
    earlier: int | None


class MissingFixing(TilugbaError, LookupError):
    """A fixing is missing: `label`, `day` as a number, `date` if there is an origin, and of
    `scenarios` the first `scenario` without it.
    """

    status = Status.MISSING
    label: str
    day: int
    date: datetime.date | None
    scenario: str | None


class OutOfMemory(TilugbaError, MemoryError):
    """Memory did not suffice."""

    status = Status.MEMORY


class UnknownName(TilugbaError, LookupError):
    """A name of the call is not declared: `name`."""

    status = Status.UNKNOWN
    name: str


class DayOutOfRange(TilugbaError, ValueError):
    """A day of the call is out of range: `word`, as it was given."""

    status = Status.DAY
    word: str


class TooManyScenarios(TilugbaError, ValueError):
    """There are too many scenarios for code that may be worth so much: `count`."""

    status = Status.SCENARIOS
    count: int


class NotUtf8(TilugbaError, ValueError):
    """A word of the call is not UTF-8."""

    status = Status.WORDS


class NoAnswer(TilugbaError):
    """There is no library and no program, or what ran was killed."""


class TimeLimit(NoAnswer, TimeoutError):
    """A call took longer than it may."""

    __str__ = Exception.__str__


KINDS: dict[int, type[TilugbaError]] = {
    int(kind.status): kind
    for kind in (
        *(Refused, UsageError, ReadError, TooLong, ParseError, RowError, MissingFixing),
        *(OutOfMemory, UnknownName, DayOutOfRange, TooManyScenarios, NotUtf8),
    )
}
# A program whose output is not taken ran out of memory: nobody else takes it.
KINDS[int(Status.NOT_WRITTEN)] = OutOfMemory


def error_of(fault: Fault, text: bytes = b"") -> TilugbaError:
    """The exception of a fault, with the date of a missing fixing if the text of the call has an
    origin.
    """
    kind = KINDS.get(fault.status, NoAnswer)
    parts = fault.cause._asdict() if fault.cause else {}
    if kind is MissingFixing:
        parts["date"] = date_of(text, parts["day"])
    return kind(fault.line or ("" if kind is not NoAnswer else fault.message), **parts)


def date_of(text: bytes, day: int) -> datetime.date | None:
    """The date of a day of a text, if the text has an origin and `datetime` has the date."""
    origin = Reading(text).declared.origin
    ordinal = None if origin is None else origin + day
    within = ordinal is not None and max(FIRST_ORDINAL, 1) <= ordinal <= LAST_ORDINAL
    return datetime.date.fromordinal(ordinal) if within else None
