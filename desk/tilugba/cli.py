"""The command `tilugba-desk`: finds a subcommand among the modules of `commands`, reads its words
and runs it.
"""

from __future__ import annotations

import argparse
import importlib
import io
import os
import signal
import sys
from collections.abc import Sequence
from pathlib import Path
from types import ModuleType
from typing import NoReturn

from . import commands
from .desk import COMMAND, Desk, give_up
from .program import VARIABLE, Status, Stop
from .signals import Signalled, signals_raised

PURPOSE = (
    "The desk beside the program Tilugba. It computes no money and gives no verdict: it asks the "
    "program. Nothing in it is proved."
)


def names() -> list[str]:
    """The names of all subcommands."""
    files = (name for folder in commands.__path__ for name in os.listdir(folder))
    return sorted(
        name.removesuffix(".py").replace("_", "-")
        for name in files
        if name.endswith(".py") and name != "__init__.py"
    )


def module_of(name: str) -> ModuleType:
    return importlib.import_module(f"{commands.__name__}.{name.replace('-', '_')}")


def summary_of(module: ModuleType) -> tuple[str, str]:
    """The first line of a module's docstring, and what stands below it."""
    first, _, rest = (module.__doc__ or "").strip().partition("\n")
    return first, rest.strip()


def overview() -> argparse.ArgumentParser:
    """The parser that lists the subcommands."""
    lines = [f"  {name:<18}{summary_of(module_of(name))[0]}" for name in names()]
    parser = argparse.ArgumentParser(
        prog=COMMAND,
        usage=f"{COMMAND} SUBCOMMAND [OPTION..] ..",
        description=PURPOSE,
        epilog="subcommands:\n" + "\n".join(
            lines
        ) + f"\n\n{COMMAND} SUBCOMMAND --help says more of one.",
        formatter_class=Help,
        allow_abbrev=False,
    )
    parser.add_argument("subcommand", metavar="SUBCOMMAND", help="one of the names below")
    return parser


def seconds(text: str) -> float:
    number = float(text)
    if not 0 < number < 1e9:
        raise ValueError
    return number


class Help(argparse.RawDescriptionHelpFormatter):
    """Help as wide as the terminal. For each argument `argparse` makes one, and for its width it
    loads much of the standard library.
    """

    def __init__(self, prog: str) -> None:
        super().__init__(prog, width=columns() - 2)


def columns() -> int:
    """The columns of the terminal; 80 if there is none, and COLUMNS says none."""
    told = os.environ.get("COLUMNS", "")
    if told.isdecimal() and int(told) > 0:
        return int(told)
    try:
        return os.get_terminal_size(sys.__stdout__.fileno()).columns or 80
    except (AttributeError, ValueError, OSError):
        return 80


class Parser(argparse.ArgumentParser):
    """A parser whose subcommand says with which status it ends if its words are not right."""

    usage_status: int = Status.USAGE

    def error(self, message: str) -> NoReturn:
        if sys.stderr is not None:  # or the usage would go to standard output
            self.print_usage(sys.stderr)
        self.exit(self.usage_status, f"{self.prog}: error: {message}\n")


def parser_of(name: str, module: ModuleType) -> argparse.ArgumentParser:
    """The parser of a subcommand's words, with the options that all have."""
    first, rest = summary_of(module)
    parser = Parser(
        prog=f"{COMMAND} {name}",
        description=f"{first}\n\n{rest}" if rest else first,
        formatter_class=Help,
        allow_abbrev=False,
    )
    parser.usage_status = getattr(module, "USAGE_STATUS", Status.USAGE)
    add_program_options(parser, None)
    module.configure(parser)
    return parser


def add_program_options(parser: argparse.ArgumentParser, default: object) -> None:
    """The options that each subcommand has; words of a word of it have them too, and leave to it
    what is not given.
    """
    shared = parser.add_argument_group("the program")
    said = (
        f"the program to run; otherwise that of {VARIABLE}, one beside this command, or in the PATH"
    )
    shared.add_argument("--program", metavar="PROGRAM", default=default, help=said)
    shared.add_argument(
        "--seconds",
        metavar="N",
        type=seconds,
        default=default,
        help="end a run of the program after N seconds",
    )


def run(words: Sequence[str], beside: Path) -> int:
    """Runs the subcommand that the first word names, and returns the status. A signal that stops it
    is raised, and ends the runs of the program.
    """
    if not words:
        overview().error("a subcommand is missing")
    name = words[0]
    if name in ("-h", "--help"):
        overview().parse_args([name])
    if name not in names():
        overview().error(f"there is no subcommand {name}; it is one of: {', '.join(names())}")
    module = module_of(name)
    arguments = parser_of(name, module).parse_args(words[1:])
    desk = Desk(name, beside, arguments.program, arguments.seconds)
    try:
        with signals_raised(desk.going.end):
            return module.run(arguments, desk)
    except Stop as stop:
        desk.complain(stop.message)
        return stop.status


def open_streams() -> None:
    """Gives each standard stream that is closed its number, which a file would have otherwise.
    Nothing can be read there, what is written to standard output fails as it does for the program,
    and what is written to standard error is lost. Standard output is written whole: with
    PYTHONUNBUFFERED Python would take a part of it for all.
    """
    for number, how in enumerate((os.O_RDONLY, os.O_RDONLY, os.O_WRONLY)):
        try:
            os.fstat(number)
        except OSError:
            os.set_inheritable(os.open(os.devnull, how), True)
    sys.stdin = sys.stdin or open(0, encoding="utf-8", closefd=False)
    if sys.stdout is None or isinstance(sys.stdout.buffer, io.RawIOBase):
        sys.stdout = open(1, "w", encoding="utf-8", closefd=False)
    sys.stderr = sys.stderr or open(2, "w", encoding="utf-8", closefd=False)


def main() -> int:
    """Runs the words of this process. No traceback reaches a user, whatever happens."""
    open_streams()
    try:
        return run(sys.argv[1:], Path(sys.argv[0]).resolve().parent)
    except SystemExit as ended:
        try:
            sys.stdout.flush()
        except OSError:
            give_up(sys.stdout.buffer)
            return Status.NOT_WRITTEN
        return ended.code if isinstance(ended.code, int) else Status.USAGE
    except Signalled as stopped:
        return stopped.status
    except KeyboardInterrupt:  # before the subcommand is read
        return Signalled(signal.SIGINT).status
    except Exception as error:  # what a subcommand did not foresee is told in one line too
        told = " ".join(str(error).split())
        Desk("", Path()).complain(f"this should not happen: {type(error).__name__}: {told}")
        return Status.DESK
