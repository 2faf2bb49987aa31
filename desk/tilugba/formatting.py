"""Lays a text out in lines of at most 100 columns. Tokens, comments and names stay as they are and
in their order; only blanks change.

A statement is a document of pieces: tokens, comments, and places where a line may end. A group of
them stands on one line if it fits, and else each of its places ends a line.
"""

from __future__ import annotations

import re
from collections.abc import Iterator
from dataclasses import dataclass, field

from .texts import tokens, trees
from .texts.grammar import OPERATORS
from .texts.reading import Reading
from .texts.tokens import Token
from .texts.trees import Statement, Term

WIDTH = 100
STEP, DEEPEST = 2, 32
COMMENT = re.compile(r"#[^\n]*")
# Words before which a line may end, those behind whose parenthesis it may, and those behind which a
# parenthesis follows at once.
BREAKS_BEFORE = ("then", "else", "against", "until")
PAIRS = ("both", "add", "pay")
CALLS = (
    "pay",
    "both",
    "add",
    "scale",
    "after",
    "cut",
    "obs",
    "model",
    "neg",
    "not",
    "min",
    "max",
    "widen",
    "round",
    "div",
    "acc",
)


class Changed(Exception):
    """The layout would not have the same tokens and comments: nothing is printed."""


@dataclass(slots=True)
class Piece:
    """A token or a comment, with whether a blank stands before it. A comment ends its line."""

    text: str
    blank: bool = False
    is_comment: bool = False


@dataclass(slots=True)
class Break:
    """A place where a line may end; a hard one always does."""

    is_hard: bool = False


@dataclass(slots=True)
class Group:
    """Pieces that stand on one line if they fit, one step in from what is round them or not."""

    step: int = 0
    is_operation: bool = False
    parts: list[Piece | Break | Group] = field(default_factory=list)


@dataclass(frozen=True, slots=True)
class Comment:
    """A comment, or an empty line as one without a text: its column, and whether it stood on a line
    of its own.
    """

    text: str
    column: int
    is_alone: bool


@dataclass(frozen=True, slots=True)
class Written:
    """A token with the comments before it."""

    token: Token
    comments: list[Comment]


def formatted(reading: Reading) -> str:
    """The text in its layout. The text has no fault."""
    written = list(with_comments(reading))
    lines: list[str] = []
    at = 0
    for number in range(len(reading.segments)):
        end = reading.segments[number].end
        some = []
        while (
            at < len(written)
            and (written[at].token.at < end or number == len(reading.segments) - 1)
        ):
            some.append(written[at])
            at += 1
        lines += statement_lines(some, reading.read(number).statement, reading.segments[number].at)
    while lines and not lines[-1]:
        lines.pop()
    laid = "".join(line + "\n" for line in merged(lines))
    check(reading, laid)
    return laid


def check(reading: Reading, laid: str) -> None:
    """The same tokens in the same order, and the same comments between them."""
    if marks_of(reading.source.data.decode("utf-8")) != marks_of(laid):
        raise Changed(
            "the layout would change the text: this is a mistake of the desk, and nothing is "
            "written"
        )


def marks_of(text: str) -> list[str]:
    """The tokens and the comments of a text, without blanks."""
    single = text.encode("utf-8").decode("latin-1")
    found: list[str] = []
    at = 0
    for token in tokens.tokens(single):
        found += [comment.rstrip() for comment in COMMENT.findall(single, at, token.at)] + [
            token.text
        ]
        at = token.end
    return found


def with_comments(reading: Reading) -> Iterator[Written]:
    """The tokens, each with the comments before it."""
    at = 0
    for token in tokens.tokens(reading.text):
        yield Written(token, list(comments_between(reading.text, at, token.at)))
        at = token.end


def comments_between(text: str, at: int, end: int) -> Iterator[Comment]:
    """The comments between two tokens, and one empty line where there are some."""
    start = text.rfind("\n", 0, at) + 1
    is_alone, was_empty = at == 0, at == 0
    lines = text[at:end].split("\n")
    for number, line in enumerate(lines):
        written = line.strip(" \t\r")
        if written:
            before = text[start:at] + line[: line.index("#")]
            # Behind several statements of one line no column is kept.
            column = len(decoded(before)) if before.count(";") <= 1 else 0
            yield Comment(decoded(written), column, is_alone)
        elif is_alone and not was_empty and number < len(lines) - 1:
            yield Comment("", 0, is_alone=True)
        was_empty = is_alone and not written
        start, at, is_alone = end, end, True


def decoded(text: str) -> str:
    """A text with a character for each byte as it is read."""
    return text.encode("latin-1").decode("utf-8")


def statement_lines(some: list[Written], statement: Statement, base: int) -> list[str]:
    """The lines of a statement, with the comments before it. One that stood behind the statement
    before begins with its column.
    """
    if not some:
        return []
    first = some[0]
    lines = [it.text if it.is_alone else f"\0{it.column} {it.text}" for it in first.comments]
    return (
        lines
        if first.token.kind == tokens.END
        else lines + list(printed(document_of(some, statement, base)))
    )


def merged(lines: list[str]) -> Iterator[str]:
    """The lines, in which a comment goes behind the statement before it, if it fits there."""
    before: str | None = None
    for line in lines:
        if not line.startswith("\0"):
            if before is not None:
                yield before
            before = line
            continue
        column, _, comment = line[1:].partition(" ")
        gap = int(column) - len(before or "")
        tight = f"{before}  {comment}"
        joined = f"{before}{' ' * gap}{comment}" if gap > 0 else tight
        fitting = next((it for it in (joined, tight) if len(it) <= WIDTH), None)
        if before is None or fitting is None:
            if before is not None:
                yield before
            before = comment
        else:
            before = fitting
    if before is not None:
        yield before


# ---- the document of a statement


def document_of(some: list[Written], statement: Statement, base: int) -> Group:
    """The pieces of a statement, in groups by its parentheses and by its terms of several words."""
    terms = {base + it.at: it for it in statement.term.nodes()} if statement.term else {}
    open_groups, ends = [Group(STEP)], [-1]
    before, last = Token(tokens.END, "", 0), Token(tokens.END, "", 0)
    for number, written in enumerate(some):
        token, term = written.token, terms.get(written.token.at)
        if number > 0:
            add_comments(open_groups[-1], written.comments)
        is_call = (
            last.text in CALLS or (last.text == "if" and terms[last.at].sort == trees.EXPRESSION)
        )
        is_behind_sign = last.text == "-" and not is_operand_end(before)
        piece = Piece(token.text, number > 0 and has_blank(last, token, is_behind_sign, is_call))
        if term and is_of_words(term):
            open_group(open_groups, ends, Group(), base + term.end)
        if (
            token.text in BREAKS_BEFORE
            or (open_groups[-1].is_operation and token.text in OPERATORS and is_operand_end(last))
        ):
            open_groups[-1].parts.append(Break())
        open_groups[-1].parts.append(piece)
        if token.text == "(":
            open_group(open_groups, ends, Group(STEP, is_operation=not is_call), -1)
            open_groups[-1].parts += [Break()] if last.text in PAIRS else []
        elif token.text == ")" and len(open_groups) > 1:
            close(open_groups, ends)
        elif token.text == "," or (token.text == "in" and statement.word != "num"):
            open_groups[-1].parts.append(Break())
        while ends[-1] == token.end:
            close(open_groups, ends)
        before, last = last, token
    return open_groups[0]


def open_group(open_groups: list[Group], ends: list[int], group: Group, end: int) -> None:
    open_groups[-1].parts.append(group)
    open_groups.append(group)
    ends.append(end)


def close(open_groups: list[Group], ends: list[int]) -> None:
    open_groups.pop()
    ends.pop()


def add_comments(group: Group, comments: list[Comment]) -> None:
    """Puts comments within a statement behind the token that they stood behind, or on lines of
    their own.
    """
    for comment in comments:
        if not comment.text:
            continue
        if group.parts and isinstance(group.parts[-1], Break):
            group.parts.pop()
        if comment.is_alone:
            group.parts.append(Break(is_hard=True))
        group.parts += [
            Piece(comment.text, not comment.is_alone, is_comment=True), Break(is_hard=True)
        ]


def is_of_words(term: Term) -> bool:
    """Whether the term has words between its parts, and no parentheses of its own round them."""
    return term.form in ("let", "loop") or (term.form == "if" and term.sort == trees.CONTRACT)


def is_operand_end(token: Token) -> bool:
    return token.kind in (tokens.NUMBER, tokens.NAME) or token.text in (")", "true", "false")


def has_blank(last: Token, token: Token, is_behind_sign: bool, is_behind_call: bool) -> bool:
    """Whether a blank stands between two tokens on one line."""
    if token.text in (")", ",", ";") or last.text == "(" or is_behind_sign:
        return False
    return not (token.text == "(" and is_behind_call)


# ---- printing


def printed(document: Group) -> Iterator[str]:
    """The lines of a document."""
    line, column, indent_of_line = [], 0, 0
    stack: list[tuple[Piece | Break | Group, int, bool]] = [(document, 0, fits(document, WIDTH))]
    while stack:
        part, indent, is_flat = stack.pop()
        if isinstance(part, Group):
            inner = min(indent + part.step, DEEPEST)
            room = WIDTH - column - tail_of(stack)
            flat = is_flat or fits(part, room)
            stack.extend((it, inner, flat) for it in reversed(part.parts))
        elif isinstance(part, Break):
            if line and (part.is_hard or not is_flat):
                yield from wrapped(line, indent_of_line)
                line, column, indent_of_line = [], indent, indent
        else:
            line.append(part)
            column += len(part.text) + (part.blank and len(line) > 1)
    yield from wrapped(line, indent_of_line)


def tail_of(stack: list[tuple[Piece | Break | Group, int, bool]]) -> int:
    """The columns of what follows a group without a place where a line may end, such as closing
    parentheses.
    """
    columns = 0
    for part, _, is_flat in reversed(stack):
        if isinstance(part, Break) and not is_flat or isinstance(part, Group) or columns > WIDTH:
            break
        if isinstance(part, Piece):
            columns += len(part.text) + part.blank
    return columns


def fits(group: Group, room: int) -> bool:
    """Whether the pieces of a group stand on one line of so many columns; a comment or a hard break
    stands on none.
    """
    rest: list[Piece | Break | Group] = [group]
    while rest:
        part = rest.pop()
        if isinstance(part, Group):
            rest.extend(reversed(part.parts))
        elif isinstance(part, Break):
            if part.is_hard:
                return False
        else:
            room -= len(part.text) + part.blank
        if room < 0:
            return False
    return True


def wrapped(line: list[Piece], indent: int) -> Iterator[str]:
    """The pieces as a line, or as several where they do not fit."""
    text = ""
    for piece in line:
        blank = " " * (2 if piece.is_comment else 1) if piece.blank and text else ""
        if text and indent + len(text) + len(blank) + len(piece.text) > WIDTH:
            yield " " * indent + text
            text = piece.text
        else:
            text += blank + piece.text
    if text:
        yield " " * indent + text


