"""The declarations of two books put together: a name of both has to mean the same, and those of the
second one alone are added.
"""

from __future__ import annotations

from collections.abc import Iterable, Iterator

from ..days import date_text
from ..program import Status, Stop
from ..texts.names import Declarations, Declared, NameSet
from ..texts.offers import number_told
from ..texts.rewriting import Piece, Pieces, behind
from .book import Book

# The statements of a text by their first words, in their order.
ORDER = (
    "portfolio",
    "amounts",
    "origin",
    "start",
    "party",
    "asset",
    "num",
    "flag",
    "template",
    "contract",
)
# Labels of both words may be in any order.
RANKS = {word: rank for rank, word in enumerate(ORDER)} | {"flag": ORDER.index("num")}
DECLARING = (NameSet.PARTY, NameSet.ASSET, NameSet.LABEL, NameSet.TEMPLATE)


def refuse_other_heads(base: Book, other: Book) -> None:
    """Ends the command if the books have other versions, amounts or origins, by the names of their
    files.
    """
    one, two = base.declared, other.declared
    refuse_other_head(base, other, "portfolio", one.version, two.version)
    refuse_other_head(base, other, "amounts", one.amounts, two.amounts)
    refuse_other_origins(base, other)


def refuse_other_origins(base: Book, other: Book) -> None:
    one, two = (
        date_text(it.origin) if it.origin is not None else None
        for it in (base.declared, other.declared)
    )
    refuse_other_head(base, other, "origin", one, two)


def refuse_other_head(base: Book, other: Book, word: str, mine: object, its: object) -> None:
    if mine != its:
        said = [f"`{word} {it};`" if it is not None else f"no `{word}`" for it in (its, mine)]
        raise Stop(Status.REFUSED, f"{other.name} has {said[0]}, and {base.name} has {said[1]}")


def refuse_other_meanings(base: Book, other: Book) -> None:
    """Ends the command if a name of both means something else in the other book."""
    for kind in DECLARING:
        known = base.declared.names(kind)
        for name, declared in other.declared.names(kind).items():
            if name not in known:
                continue
            mine, its = meaning(kind, known[name], base.declared), meaning(
                kind, declared, other.declared
            )
            if mine != its:
                raise Stop(
                    Status.REFUSED,
                    f"{kind.value} {name} means something else in {other.name}: `{its}`,"
                    f" and in {base.name} `{mine}`",
                )


def meaning(kind: NameSet, name: Declared, declared: Declarations) -> str:
    """A declaration, spelled in one way whatever its text is."""
    if kind is NameSet.PARTY:
        return f"party {name.name};"
    if kind is NameSet.ASSET:
        decimals = declared.amounts if name.decimals is None else name.decimals
        return (
            f"asset {name.name} : {decimals};" if declared.version >= 2 else f"asset {name.name};"
        )
    if kind is NameSet.TEMPLATE:
        return f"template {name.name} = {name.days};"
    if name.decimals is None:
        return f"flag {name.name};"
    low, high = (number_told(it or 0, name.decimals) for it in (name.low, name.high))
    return f"num {name.name} : {name.decimals} in {low} .. {high};"


def new_declarations(base: Book, other: Book) -> Iterator[tuple[str, str]]:
    """The declarations of the names that the base lacks: the first word of each, and its text.
    Names of parties share a line.
    """
    for kind in DECLARING:
        known = base.declared.names(kind)
        new = [it for name, it in other.declared.names(kind).items() if name not in known]
        texts = [meaning(kind, it, other.declared) for it in new]
        if new and kind in (NameSet.PARTY, NameSet.ASSET):
            word = kind.value
            texts = [f"{word} {', '.join(text[len(word) + 1 : -1] for text in texts)};"]
        for text in texts:
            yield text.partition(" ")[0], text + "\n"


def with_declarations(base: Book, other: Book) -> Pieces:
    """The base with what the other book declares too, each line behind those of its kind."""
    statements = list(base.pieces.statements)
    for word, text in new_declarations(base, other):
        number = sum(RANKS[it.word] <= RANKS[word] for it in statements)
        statements = behind(statements, number, [Piece(word, (), text)])
    return base.pieces.with_statements(statements)


def merged(base: Book, other: Book, contracts: Iterable[Piece]) -> Pieces:
    """The base with the declarations of the other book that it lacks, and these contracts behind
    its own.
    """
    refuse_other_heads(base, other)
    refuse_other_meanings(base, other)
    pieces = with_declarations(base, other)
    statements = list(pieces.statements)
    return pieces.with_statements(behind(statements, len(statements), contracts))
