"""Random histories of a book that is kept: events with tables, of which some rows are wrong, and
what their parts say that is paid.
"""

from __future__ import annotations

from collections import Counter
from dataclasses import dataclass, field, replace
from typing import Any

from tests import random_books
from tests.random_books import Place, Source, World, table_of
from tests.support import the_program
from tilugba.books.book import Book, File, book_of
from tilugba.books.events import ADD, ADVANCE, AMEND, DROP, JOIN, NOVATE, PRUNE, Event, event
from tilugba.books.flow_lines import place_of
from tilugba.texts.rewriting import Edit, rewritten

ALWAYS = -(10**9)


@dataclass(frozen=True)
class Part:
    """A contract of a text, and the days on which its lines count."""

    text: bytes
    name: str
    first: int = ALWAYS
    end: int | None = None


@dataclass
class History:
    """Events of a book by a table of fixings, and the parts of which its ledger is made."""

    dice: Any
    world: World
    wrong: World
    first: Source
    others: list[Source]
    day: int
    parts: list[Part] = field(default_factory=list)
    flows: dict[bytes, list[str]] = field(default_factory=dict)

    def book(self) -> Book:
        return book_of(File("first.txt", self.first.text))

    def begin(self) -> None:
        self.parts = [Part(self.first.text, name) for name in self.first.names]

    def known_on(self, day: int, some: World, labels: set[str]) -> bytes:
        """What is observed before a day, and perhaps some rows of later days."""
        last = day + (self.dice.below(6) if self.dice.chance(30) else 0)
        return table_of(
            {place: it for place, it in some.rows.items() if place[0] in labels and place[1] < last}
        )

    # ---- events

    def next_event(self, today: Book, some: World) -> Event:
        """A random event on the book of today, by a world of rates."""
        kinds = [ADVANCE, ADVANCE, ADVANCE, NOVATE, DROP, PRUNE] + (
            [ADD, AMEND, JOIN] if self.others else []
        )
        kind = self.dice.one(kinds)
        names = list(today.contracts)
        if kind in (NOVATE, DROP) and not names:
            kind = ADVANCE
        return getattr(self, kind)(today, some, names)

    def advance(self, today: Book, some: World, _: list[str]) -> Event:
        self.day = today.start + self.dice.between(1, 4)
        return event(
            ADVANCE,
            "--to",
            str(self.day),
            table=File("t.csv", self.known_on(self.day, some, today.labels)),
        )

    def novate(self, today: Book, some: World, names: list[str]) -> Event:
        self.day = today.start + self.dice.below(3)
        name, old, new = self.dice.one(names), *(self.dice.one(self.parties(today)) for _ in "ab")
        part = self.end(name)
        self.parts.append(replace(part, text=renamed(part, old, new), first=self.day, end=None))
        table = File("t.csv", self.known_on(self.day, some, today.labels))
        return event(
            NOVATE,
            "--to",
            str(self.day),
            "--contract",
            name,
            "--old",
            old,
            "--new",
            new,
            table=table,
        )

    def parties(self, today: Book) -> list[str]:
        return [
            it.name
            for piece in today.pieces.statements
            if piece.word == "party"
            for it in piece.declared
        ]

    def end(self, name: str) -> Part:
        """The lines of a contract count up to today. Answers the part as it was."""
        place = next(
            number for number, it in enumerate(self.parts) if it.name == name and it.end is None
        )
        part = self.parts[place]
        self.parts[place] = replace(part, end=self.day)
        return part

    def drop(self, today: Book, some: World, names: list[str]) -> Event:
        name = self.dice.one(names)
        self.end(name)
        return event(DROP, name)

    def prune(self, today: Book, some: World, names: list[str]) -> Event:
        return event(PRUNE)

    def add(self, today: Book, some: World, names: list[str]) -> Event:
        deals = self.others.pop()
        return self.with_deals(ADD, deals.text, today, some)

    def amend(self, today: Book, some: World, names: list[str]) -> Event:
        deals = self.others.pop()
        if not names:
            return self.with_deals(ADD, deals.text, today, some)
        book = book_of(File("d.txt", deals.text))
        first = next(iter(book.contracts.values()))
        name = self.dice.one(names)
        at = first.text.rindex(first.name, 0, first.term[0])
        piece = replace(first, text=rewritten(first.text, [Edit(at, at + len(first.name), name)]))
        kept = [it for it in book.pieces.statements if it.word != "contract"]
        self.end(name)
        text = book.rewritten(replace(book.pieces, statements=(*kept, piece))).file.data
        return self.with_deals(AMEND, text, today, some)

    def join(self, today: Book, some: World, names: list[str]) -> Event:
        other = self.others.pop()
        start = book_of(File("d.txt", other.text)).start
        self.day = max(today.start, start)
        return self.with_deals(JOIN, other.text, today, some)

    def with_deals(self, kind: str, text: bytes, today: Book, some: World) -> Event:
        deals = book_of(File("deals.txt", text))
        self.parts += [Part(text, name) for name in deals.contracts]
        table = File("t.csv", self.known_on(self.day, some, today.labels | deals.labels))
        return event(kind, text=deals.file, table=table)

    # ---- what is paid

    def ledger(self) -> Counter[str]:
        """The lines of the parts before today, over the true rates."""
        return Counter(line for part in self.parts for line in self.lines_of(part))

    def lines_of(self, part: Part) -> list[str]:
        """The lines of a part before today."""
        if part.text not in self.flows:
            labels = book_of(File("part.txt", part.text)).labels
            found = random_books.flows(the_program(), self.world, part.text, labels)
            self.flows[part.text] = found
        place = place_of(self.book().calendar)
        own = [it for it in self.flows[part.text] if it.split(",")[0] == part.name]
        end = self.day if part.end is None else part.end
        return [it for it in own if part.first <= place(it)[0] < end]


def renamed(part: Part, old: str, new: str) -> bytes:
    """The text of a part with one party in the place of another in its contract."""
    book = book_of(File("part.txt", part.text))
    edits: list[Edit] = []
    for base, statement in book.reading.statements():
        if statement.word == "contract" and statement.name == part.name and statement.term:
            for node in statement.term.nodes():
                found = [
                    it
                    for it in node.arguments
                    if it.role in ("payer", "receiver") and it.text == old
                ]
                edits += [Edit(base + it.at, base + it.at + len(old), new) for it in found]
    text = with_parties(book, (old, new)).file.data.decode("latin-1")
    shift = len(text) - len(book.reading.text)
    return rewritten(text, [Edit(it.at + shift, it.end + shift, it.text) for it in edits]).encode(
        "latin-1"
    )


def with_parties(book: Book, names: tuple[str, ...]) -> Book:
    """The book with these parties declared."""
    from tilugba.books.merging import with_declarations

    head = "portfolio 1;amounts 2;" + "".join(f"party {it};" for it in dict.fromkeys(names))
    return book.rewritten(with_declarations(book, book_of(File("parties", head.encode()))))


def a_history(dice: Any) -> History:
    """A random book, further deals for it, the true rates, and rates of which some are wrong."""
    full = random_books.makers.some_decls(dice)
    while not full.labels:
        full = random_books.makers.some_decls(dice)
    first = random_books.source(
        dice, random_books.narrowed(dice, full, full.start), "c", 7, 3
    )
    others = []
    for prefix in "defg":
        start = max(0, full.start + dice.between(-5, 15))
        others.append(
            random_books.source(dice, random_books.narrowed(dice, full, start), prefix, 3)
        )
    world = World(dice, full)
    world.fill(full.start - 70, full.start + 110)
    for it in (first, *others):
        random_books.flows(
            the_program(), world, it.text, [name for name, _ in it.declared.labels]
        )
    return History(dice, world, wrong_world(dice, world, full.start), first, others, full.start)


def wrong_world(dice: Any, world: World, start: int) -> World:
    """The rates with some others near the start."""
    wrong = World(dice, world.declared, dict(world.rows))
    places: list[Place] = [it for it in world.rows if start - 3 <= it[1] <= start + 12]
    for _ in range(dice.between(1, 30)):
        place = dice.one(places)
        wrong.rows[place] = wrong.value(place[0])
    return wrong
