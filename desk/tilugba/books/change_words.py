"""The words of `book` that make a book of one or two others, or compare them."""

from __future__ import annotations

import argparse
from pathlib import Path

from .. import files
from ..desk import Desk
from ..program import Status
from . import changes, comparing, ids, splitting
from .book import Book, file_of, read_book
from .changes import Changed
from .words import Word, book_argument, fix_argument, printed, table_of

# ---- new deals


DEALS = """DEALS is a portfolio with a start of its own, from which its contracts count. They are
written for the start of BOOK: those of a later start get an `after`, those of an earlier one are
advanced over FIX, and what was due is printed as comments. New parties, assets, labels and
templates are added. A name that means something else in BOOK, other `amounts`, another origin or
another version are refused."""


def deal_arguments(parser: argparse.ArgumentParser) -> None:
    book_argument(parser)
    parser.add_argument("deals", metavar="DEALS", help="a portfolio, with a start of its own")
    fix_argument(parser)
    tables_of_ids(parser, "BOOK", "DEAL")


def tables_of_ids(parser: argparse.ArgumentParser, one: str, two: str) -> None:
    parser.add_argument(
        "--ids",
        nargs=3,
        metavar=(f"{one}_IDS", f"{two}_IDS", "NEW"),
        help="tables `name,id,..` of both; they become the file NEW, which is not there yet",
    )


def carried(arguments: argparse.Namespace, two: Book, replaces: bool = False) -> bytes | None:
    """The ids of two books as one table, if they are named. The first one may have contracts that
    are not in its book any more.
    """
    if not arguments.ids:
        return None
    tables = [file_of(it) for it in arguments.ids[:2]]
    files.refuse_old(Path(arguments.ids[2]))
    mine, its = ids.read(tables[0]), ids.of_book(tables[1], two)
    return ids.joined(mine, its, (tables[0].name, tables[1].name), replaces).data()


def printed_with_ids(
    desk: Desk, arguments: argparse.Namespace, changed: Changed, table: bytes | None
) -> int:
    """Prints a book, and makes the table of its ids."""
    if table is not None:
        files.create(Path(arguments.ids[2]), table)
    return printed(desk, changed)


def run_add(arguments: argparse.Namespace, desk: Desk) -> int:
    book, deals = read_book(arguments.book), read_book(arguments.deals)
    table = carried(arguments, deals)
    changed = changes.added(desk.program, book, deals, table_of(arguments.fix))
    return printed_with_ids(desk, arguments, changed, table)


def run_amend(arguments: argparse.Namespace, desk: Desk) -> int:
    book, deals = read_book(arguments.book), read_book(arguments.deals)
    table = carried(arguments, deals, replaces=True)
    changed = changes.amended(desk.program, book, deals, table_of(arguments.fix))
    return printed_with_ids(desk, arguments, changed, table)


# ---- contracts that go


def drop_arguments(parser: argparse.ArgumentParser) -> None:
    book_argument(parser)
    parser.add_argument("names", metavar="NAME", nargs="+", help="a contract of it")


def run_drop(arguments: argparse.Namespace, desk: Desk) -> int:
    return printed(desk, changes.dropped(read_book(arguments.book), arguments.names))


def run_prune(arguments: argparse.Namespace, desk: Desk) -> int:
    changed = changes.pruned(read_book(arguments.book))
    printed(desk, changed)
    desk.tell(changed.gone)
    return Status.DONE


# ---- several books


def two_arguments(parser: argparse.ArgumentParser) -> None:
    parser.add_argument("one", metavar="A", help="a portfolio")
    parser.add_argument("two", metavar="B", help="another one, of the same origin")
    fix_argument(parser)


def join_arguments(parser: argparse.ArgumentParser) -> None:
    two_arguments(parser)
    tables_of_ids(parser, "A", "B")


def run_join(arguments: argparse.Namespace, desk: Desk) -> int:
    one, two = read_book(arguments.one), read_book(arguments.two)
    table = carried(arguments, two)
    changed = changes.united(desk.program, one, two, table_of(arguments.fix))
    return printed_with_ids(desk, arguments, changed, table)


def split_arguments(parser: argparse.ArgumentParser) -> None:
    book_argument(parser)
    parser.add_argument("folder", metavar="DIR", type=Path, help="a folder that is not there yet")
    how = parser.add_mutually_exclusive_group(required=True)
    how.add_argument("--own", metavar="PARTY", help="split by the counterparty of this party")
    how.add_argument("--by", metavar="TABLE", help="split by a table `name,part`")
    said = "a table `name,id,..`; PART.ids.csv has the rows of each part"
    parser.add_argument("--ids", metavar="TABLE", help=said)


def run_split(arguments: argparse.Namespace, desk: Desk) -> int:
    book = read_book(arguments.book)
    if arguments.own is not None:
        parts = splitting.by_counterparty(book, arguments.own)
    else:
        parts = splitting.by_table(book, file_of(arguments.by))
    table = ids.read(file_of(arguments.ids)) if arguments.ids else None
    contents: dict[str, bytes] = {}
    for part, it in splitting.split(book, parts).items():
        contents[f"{part}.txt"] = it.file.data
        if table:
            contents[f"{part}.ids.csv"] = table.only(it.contracts).data()
    files.new_folder(arguments.folder, contents)
    return Status.DONE


def run_diff(arguments: argparse.Namespace, desk: Desk) -> int:
    one, two = read_book(arguments.one), read_book(arguments.two)
    lines = comparing.compared(desk.program, one, two, table_of(arguments.fix))
    desk.write(*(f"{line}\n" for line in lines))
    return 1 if lines else 0


CHANGES = {
    "add": Word(
        "add deals to a book",
        f"{DEALS} A contract's name\nthat BOOK has is refused, even if both are the same.",
        deal_arguments,
        run_add,
    ),
    "amend": Word(
        "put deals in the place of contracts of their names",
        f"{DEALS} A contract's name\nthat BOOK does not have ends the command with 10.",
        deal_arguments,
        run_amend,
    ),
    "drop": Word(
        "take contracts out of a book",
        "They go with the comments above them. An unknown name ends the command with 10.",
        drop_arguments,
        run_drop,
    ),
    "prune": Word(
        "take out the contracts of which nothing is left",
        "These are those that are `zero`. Their names are printed to standard error, one a line.",
        book_argument,
        run_prune,
    ),
    "join": Word(
        "make one book of two",
        """The book of the earlier start is advanced over FIX to the start of the other one, and
what was due is printed as comments. A name that means something else in B, a contract's name that
both have, other `amounts`, another origin or another version are refused.""",
        join_arguments,
        run_join,
    ),
    "split": Word(
        "make several books of one",
        """Writes a book PART.txt for each part into the new folder DIR, with all declarations and
the contracts of the part. With --own the part of a contract is its counterparty. A contract that
has more than one, or none, or not PARTY, goes to `other`. With --by it is that of a table
`name,part`, and a contract without a row goes to `other`. What was due goes with its contract.""",
        split_arguments,
        run_split,
    ),
    "diff": Word(
        "say how two books differ",
        """Prints `new,NAME`, `gone,NAME` or `changed,NAME` for contracts, by name. Contracts are
compared by the text that `migrate` prints, and by what the names in it are declared as. The book of
the earlier start is advanced over FIX to that of the other one. With FIX it also prints `gone,LINE`
and `new,LINE` for the flow lines of A alone and of B alone, from that day on, by day and then by
name. Ends with 0 if there is no difference, and with 1 if there is one.""",
        two_arguments,
        run_diff,
    ),
}
