"""The desk beside the program Tilugba: it calls it, reads its texts and tables, and explains what
it says.

    flows = tilugba.flows(portfolio, fixings)
    flows[0].amount

Each command is a function. It is answered by the library in this process, or where there is none by
the program. Nothing here is proved. It computes no money and gives no verdict: each amount, value
and acceptance is the library's or the program's.

The rooms:

- `calls`: the commands as functions. `answer_rows` has what they return, `errors` what they raise,
  `exact_tables` what tables may be.
- `engines`: what answers a call. `native` is the library, by ctypes; `children` runs calls with
  limits.
- `program`: finds and runs the program; the one place that knows its statuses and fault lines.
- `texts`: tokens, and one parser of the four grammars.
- `tables`: fixings, curves and sets of scenarios, as the program reads them.
- `days`: days as numbers and as dates, weekdays, holidays.
- `asking`: calls by the thousand, here or elsewhere. `histories`, `shocks`, `exposures`: a book day
  by day and over scenarios.
- `diaries`, `reports`, `pictures`: what contracts did, and a book as a page.
- `receipts`, `verifying`: what an answer was made of, and whether it stands. `night`: one command
  on each of many books.
- `desk`, `cli`: what a subcommand works with, and how one is found and run.
- `commands`: a file a subcommand. Its head says how one is added.
- `editor`: the language server.
"""

from __future__ import annotations

import importlib
from pathlib import Path

# Where each name of the package lies. It is imported when it is first asked for, since subcommands
# need few of them.
HOMES = {
    "calls": (
        *("advance", "check", "expand", "flows", "migrate", "novate", "payoff", "positions"),
        *("run", "sample", "scenarios", "settle", "value"),
        *(
            "Calls",
            "curve_table",
            "fixings_table",
            "limited",
            "over_library",
            "over_program",
            "pool",
            "scenario_table",
        ),
    ),
    "answer_rows": (
        "Advanced", "Flow", "Named", "Position", "Rows", "Sample", "Scenarios", "Sum", "Verdict"
    ),
    "errors": (
        *(
            "DayOutOfRange",
            "MissingFixing",
            "NoAnswer",
            "NotUtf8",
            "OutOfMemory",
            "ParseError",
            "ReadError",
            "Refused",
            "RowError",
        ),
        *("TilugbaError", "TimeLimit", "TooLong", "TooManyScenarios", "UnknownName", "UsageError"),
    ),
    "exact_tables": ("TableError",),
    "program": ("Answer",),
}
HOME_OF = {name: home for home, names in HOMES.items() for name in names}
__all__ = sorted(HOME_OF)


def __getattr__(name: str) -> object:
    if name not in HOME_OF:
        raise AttributeError(f"module {__name__} has no attribute {name}")
    found = getattr(importlib.import_module(f".{HOME_OF[name]}", __name__), name)
    globals()[name] = found
    return found


def __dir__() -> list[str]:
    return sorted({*globals(), *__all__})


# A package with a library of its own says at once that this processor does not run it.
if Path(__file__).with_name("libtilugba.so").exists():
    from .native import refuse_old_processor

    refuse_old_processor()
