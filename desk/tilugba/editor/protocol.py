"""Messages of the language server protocol on two streams: a header with the length, and JSON."""

from __future__ import annotations

import json
from dataclasses import dataclass
from typing import Any, BinaryIO

METHOD_NOT_FOUND, INVALID_PARAMS, INTERNAL_ERROR = -32601, -32602, -32603
GREATEST_MESSAGE = 1 << 28
Json = dict[str, Any]


class Refusal(Exception):
    """A request is answered with an error: a code and a message."""

    def __init__(self, code: int, message: str) -> None:
        super().__init__(message)
        self.code = code
        self.message = message


@dataclass(frozen=True)
class Connection:
    """The two streams."""

    input: BinaryIO
    output: BinaryIO

    def read(self) -> Json | None:
        """The next message, or nothing at the end of the input or of what can be read of it."""
        length = self.read_length()
        if length is None or not 0 <= length <= GREATEST_MESSAGE:
            return None
        data = self.input.read(length)
        if len(data) < length:
            return None
        try:
            message = json.loads(data)
        except (ValueError, RecursionError):
            return {}
        return message if isinstance(message, dict) else {}

    def read_length(self) -> int | None:
        """The length in the header of a message."""
        length = None
        while line := self.input.readline(1_000):
            if not line.strip():
                return length
            name, _, value = line.partition(b":")
            if name.strip().lower() == b"content-length" and value.strip().isdigit():
                length = int(value)
        return None

    def write(self, message: Json) -> None:
        data = json.dumps({"jsonrpc": "2.0", **message}, ensure_ascii=False).encode(
            "utf-8", "replace"
        )
        self.output.write(b"Content-Length: %d\r\n\r\n" % len(data) + data)
        self.output.flush()

    def notify(self, method: str, params: Json) -> None:
        self.write({"method": method, "params": params})
