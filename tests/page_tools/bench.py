"""What the parts of tests/page share: a count of what holds, and what they run."""
from __future__ import annotations

import sys
from dataclasses import dataclass, field
from pathlib import Path

TOP = Path(__file__).resolve().parents[2]
TOOLS = Path(__file__).resolve().parent
sys.path[:0] = [str(TOP / "tests"), str(TOP / "tools")]
from building import wasm

# What a module may have whose memory is small, in its pages of 65,536 bytes.
SMALL_MEMORY = (64 << 20) >> 16


@dataclass
class Bench:
    """Counts what holds, and says what does not. `page` is a folder as tools/build-page makes it,
    and `wide` the form of its module with addresses of 64 bits, or None."""

    program: Path
    page: Path
    wide: Path | None
    room: Path
    pictures: Path
    passed: int = 0
    failed: int = 0
    passed_over: list[str] = field(default_factory=list)
    # Files of recorded calls, by what was recorded.
    calls: dict[str, Path] = field(default_factory=dict)

    def judge(self, holds: bool, said: str) -> None:
        self.passed += bool(holds)
        self.failed += not holds
        if not holds:
            print(said[:3000], flush=True)

    def limited(self) -> Path:
        """The page's module with a memory of at most 64 MiB."""
        file = self.room / "limited.wasm"
        data = (self.page / "tilugba.wasm").read_bytes()
        file.write_bytes(wasm.with_most_memory(data, SMALL_MEMORY))
        return file

    def pass_over(self, what: str, tool: str) -> None:
        self.passed_over.append(f"{what}, since {tool} is not installed")
