"""What receipts say beside the files that are there, and beside what is printed again."""

from __future__ import annotations

import io
from collections.abc import Iterator, Mapping, Sequence
from contextlib import redirect_stderr, redirect_stdout, suppress
from dataclasses import dataclass, field
from pathlib import Path

from . import engines
from .asking.asks import path_of
from .desk import Desk
from .night.books import OWN
from .program import Status, Stop
from .receipts import PROGRAM, Receipt, Sum, sum_of_desk

LONGEST = 120
# Subcommands that have receipts, and their options that write.
PRINTING = ("history",)
WRITING = ("keep", "receipt", "slurm", "dask")


@dataclass(frozen=True)
class Outcome:
    """What was found of a receipt, or of an output: a line, and whether it stands."""

    stands: bool
    line: str


@dataclass(frozen=True)
class Again:
    """How a run ended that was made again, and what answered."""

    status: int
    output: bytes
    program: Sum


@dataclass
class Verifying:
    """Receipts of a file, the folder from which their names go, and what was printed again."""

    desk: Desk
    path: Path
    folder: Path
    again: bool
    printed: dict[int, bytes] = field(default_factory=dict)

    def outcome(self, number: int, receipt: Receipt) -> Outcome:
        """Whether a receipt stands, and if not, why."""
        wrong, remarks = [*self.wrong_files(receipt), *self.wrong_output(receipt)], []
        if self.again and not wrong:
            try:
                again = self.run(receipt)
            except Stop as stop:
                wrong = [f"it does not run: {stop.message}"]
            else:
                self.printed[number] = again.output
                wrong, remarks = list(self.wrong_again(receipt, again)), list(
                    others(receipt, again)
                )
        said = f"receipt {number}: {receipt.told}"
        return Outcome(
            not wrong, f"{said}: {'; '.join(wrong) if wrong else ', '.join(['stands', *remarks])}"
        )

    def wrong_files(self, receipt: Receipt) -> Iterator[str]:
        for it in receipt.files:
            if it.name is not None and (it.sha256 or not self.again):
                yield from self.compared(it, self.folder / it.name)

    def compared(self, said: Sum, path: Path) -> Iterator[str]:
        now = Sum.of_file(path)
        if said.sha256 is None:
            yield f"nothing is known of {said.name}, which was not read"
        elif now.sha256 is None:
            yield f"{path} is not read"
        elif not said.is_as(now):
            sums = f"its SHA-256 is {now.sha256[:12]}.., and was {said.sha256[:12]}.."
            yield f"{path} is another file: {sums}"

    def wrong_output(self, receipt: Receipt) -> Iterator[str]:
        """The result of a night run is beside the folder of its own."""
        if receipt.output and receipt.output.name:
            yield from self.compared(receipt.output, self.place_of(receipt.output.name))

    def place_of(self, name: str) -> Path:
        own = self.path.resolve().parent
        return own.parent / Path(name).name if own.name == OWN else self.folder / name

    def wrong_again(self, receipt: Receipt, again: Again) -> Iterator[str]:
        """What a run says now that the receipt does not."""
        if again.status != receipt.status:
            yield f"the status is {again.status}, and was {receipt.status}"
        elif receipt.output is None:
            yield "nothing is known of what it printed"
        elif not Sum.of(None, again.output).is_as(receipt.output):
            yield f"it prints something else{self.where(receipt, again.output)}"

    def where(self, receipt: Receipt, output: bytes) -> str:
        """The first line that differs, if the output is there."""
        name = receipt.output.name if receipt.output else None
        with suppress(OSError):
            if name is not None:
                return first_difference(self.place_of(name).read_bytes(), output)
        return ""

    def run(self, receipt: Receipt) -> Again:
        """The answer now."""
        if receipt.by == PROGRAM:
            answer = self.desk.program.run(*self.words_of(receipt))
            return Again(answer.status, answer.output, Sum.of_file(self.desk.program.path))
        return self.run_desk(receipt)

    def words_of(self, receipt: Receipt) -> list[str | bytes]:
        """The words of the program, in which a file is its bytes."""
        paths = {it.name: self.folder / it.name for it in receipt.files if it.name is not None}
        known = {name: path.read_bytes() for name, path in paths.items() if path.is_file()}
        return engines.exchanged(receipt.words, known)

    def run_desk(self, receipt: Receipt) -> Again:
        """What a subcommand prints now. No other is run than those that print and write nothing."""
        from .cli import module_of, parser_of

        name, *words = receipt.words or [""]
        if name not in PRINTING:
            raise Stop(Status.USAGE, f"no receipt is of {name or 'no word'}")
        names = [it.name for it in receipt.files if it.name is not None]
        moved = [str(self.folder / word) if is_file_of(word, names) else word for word in words]
        module, out = module_of(name), io.BytesIO()
        try:
            with redirect_stderr(io.StringIO()), redirect_stdout(io.StringIO()):
                arguments = parser_of(name, module).parse_args(moved)
        except SystemExit as error:
            raise Stop(Status.USAGE, f"{name} does not take these words") from error
        if any(getattr(arguments, it, None) for it in WRITING):
            raise Stop(Status.USAGE, "these words would write")
        words_of_program = self.desk.program_path, self.desk.seconds
        desk = Desk(name, self.desk.beside, *words_of_program, output=out, going=self.desk.going)
        status = module.run(arguments, desk)
        return Again(status, out.getvalue(), Sum.of_file(path_of(desk.engine)))


def is_file_of(word: str, names: Sequence[str]) -> bool:
    """Whether a word names a file of the receipt, or the folder of one."""
    return any(name == word or Path(name).parent == Path(word) for name in names)


def others(receipt: Receipt, again: Again) -> Iterator[str]:
    """What answered now and did not answer then; that changes no verdict."""
    if not receipt.program.is_as(again.program):
        yield f"by another program, {again.program.name}"
    if receipt.desk is not None and receipt.desk != sum_of_desk():
        yield "by another desk"


def first_difference(one: bytes, other: bytes) -> str:
    """The number and both forms of the first line in which two texts differ."""
    lines = [it.decode("utf-8", "replace").splitlines() for it in (one, other)]
    for number in range(max(map(len, lines))):
        was, now = (it[number][:LONGEST] if number < len(it) else "nothing" for it in lines)
        if was != now:
            return f": line {number + 1} of the file is {was}, and now it is {now}"
    return ""


def outcomes_of(
    verifying: Verifying, receipts: Sequence[Receipt], outputs: Mapping[Path, bytes]
) -> Iterator[Outcome]:
    """What was found of each receipt, and then of each output."""
    for number, receipt in enumerate(receipts, 1):
        yield verifying.outcome(number, receipt)
    for path, data in outputs.items():
        yield outcome_of_output(verifying, receipts, path, data)


def outcome_of_output(
    verifying: Verifying, receipts: Sequence[Receipt], path: Path, data: bytes
) -> Outcome:
    """Whether a receipt has the sum of an output; if none has, which of its lines none makes."""
    held = Sum.of(None, data)
    for number, receipt in enumerate(receipts, 1):
        if receipt.output and held.is_as(receipt.output):
            return Outcome(True, f"{path}: is what receipt {number} says: {receipt.told}")
    if not verifying.again:
        return Outcome(False, f"{path}: no receipt has its sum")
    made = {line for text in verifying.printed.values() for line in text.splitlines()}
    lines = data.splitlines()
    others = [number for number, line in enumerate(lines, 1) if line not in made]
    if not others:
        return Outcome(
            False, f"{path}: no receipt has its sum, though each of its lines is made by one"
        )
    first = lines[others[0] - 1].decode("utf-8", "replace")[:LONGEST]
    told = f"{len(lines) - len(others)} of {len(lines)} lines are what receipts make"
    return Outcome(False, f"{path}: {told}; line {others[0]} is not: {first}")
