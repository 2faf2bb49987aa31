"""One line of cure for the slips that people make in texts. Each function knows some slips, and
says nothing of others.
"""

from __future__ import annotations

import re
from collections.abc import Callable

from ..command_line import nearest
from ..days import date_text, ordinal_of
from ..texts import tokens, trees
from ..texts.grammar import CODE, GRAMMARS, PORTFOLIO, SCHEDULES
from ..texts.names import NameSet
from ..texts.offers import article
from ..texts.tokens import BYTE_ORDER_MARK
from .scenes import Scene

ORDER = (
    "portfolio",
    "amounts",
    "origin",
    "start",
    "party",
    "asset",
    "num",
    "flag",
    "template",
    "contract",
)
OTHER_OPERATORS = {"and": "&", "or": "|", "AND": "&", "OR": "|", "mod": None}
TABLE_HEADERS = ("label,day,value", "offset,factor", "scenario,label,day,value")
# What languages of other tools write, by the byte at which no token begins.
STRAYS = {
    "/": "there is no `/`: a quotient says how it is rounded, as div(half_even, 2, a, b)",
    "%": "there is no `%`: write 5 % as 0.05",
    "$": "an amount has no sign of a currency: the asset stands in pay(ASSET, PAYER, RECEIVER)",
    '"': "there are no quotes: names are written as they are",
    "'": "there are no quotes, and no marks between thousands",
    "[": "there are no square brackets: a term has ( and )",
    "{": "there are no braces: a comment goes from # to the end of its line",
    "\\": "there is no backslash: a comment goes from # to the end of its line",
    "^": "there is no power: write a product, (a * a)",
    "!": "there is no `!` alone: not(a), or (a != b)",
}

Cure = Callable[[Scene], str | None]


def cure(scene: Scene) -> str | None:
    """What to do about a fault, if it is a slip that is known."""
    return next((told for known in CURES if (told := known(scene))), None)


def of_no_text(scene: Scene) -> str | None:
    """A byte order mark, another encoding, or a file of another kind."""
    data, at = scene.reading.source.data, scene.fault.at
    if data.startswith(BYTE_ORDER_MARK) and at == 0:
        return (
            "three bytes that cannot be seen stand before the text, a byte order mark: save it as "
            "UTF-8 without one (tail -c +4 FILE)"
        )
    if data[:2] in (b"\xff\xfe", b"\xfe\xff"):
        return "the file is UTF-16: save it as UTF-8"
    if scene.fault.kind == "utf8":
        return "the file has another encoding, such as Latin-1: save it as UTF-8"
    if data[:2] == b"PK":
        return "this is the file of a spreadsheet or an archive: export it as text"
    first = data.split(b"\n", 1)[0].strip().decode("utf-8", "replace").lower().replace(";", ",")
    if first in TABLE_HEADERS:
        return "this is a table: the files stand in another order in the command"
    if at == 0 or not scene.before:
        grammar = next((it for it in GRAMMARS if it.word == scene.token.text), None)
        if grammar and grammar is not scene.reading.grammar:
            return (
                f"this is {article(grammar.name)}, and the command takes "
                f"{article(scene.reading.grammar.name)}"
            )
    return None


def of_a_comment(scene: Scene) -> str | None:
    """A comment as other languages have it."""
    for written in ("//", "/*", "--"):
        if scene.reading.text.startswith(written, scene.fault.at):
            return f"a comment begins with #, not with {written}"
    return None


def of_a_comma(scene: Scene) -> str | None:
    """A comma within a number: between thousands, or in the place of a point."""
    found = [scene.last(3), scene.last(2), scene.last(), scene.token, scene.next(), scene.next(2)]
    for left, comma, right in zip(found, found[1:], found[2:]):
        adjacent = left.end == comma.at and comma.end == right.at
        if adjacent and comma.text == "," and left.kind == right.kind == tokens.NUMBER:
            if len(right.text.split(".")[0]) == 3:
                return f"there are no marks between thousands: {left.text}{right.text}"
            return f"a point stands before decimals: {left.text}.{right.text}"
    return None


def of_a_number(scene: Scene) -> str | None:
    """A number without digits before or behind its point, with a plus or an exponent."""
    text, at = scene.reading.text, scene.fault.at
    if scene.token.kind == tokens.STRAY and text[at : at + 1] == ".":
        digits = re.compile("[0-9]*").match(text, at + 1)[0]
        if digits:
            return f"a digit stands before the point: 0.{digits}"
        if scene.last().kind == tokens.NUMBER and scene.last().end == at:
            return f"a digit stands behind the point: {scene.last().text} or {scene.last().text}.0"
    if scene.token.text == "+" and scene.next().kind == tokens.NUMBER and not scene.operand:
        return f"a number has no plus: {scene.next().text}"
    if scene.last().kind == tokens.NUMBER and scene.last().end == at:
        if re.compile("[eE][0-9]*").fullmatch(scene.token.text):
            return "a number has no exponent: write all its digits"
        if (
            scene.token.kind == tokens.MARK
            and scene.next().kind == tokens.NUMBER
            and scene.token.text == "-"
        ):
            return None
    if text[at : at + 1] == "%" and scene.last().kind == tokens.NUMBER:
        return STRAYS["%"]
    return None


def of_a_date(scene: Scene) -> str | None:
    """A date where a number of days stands."""
    ordinal = ordinal_of(scene.token.text) if scene.token.kind == tokens.DATE else None
    if ordinal is None or scene.fault.offers.date:
        return None
    if (
        scene.reading.grammar is SCHEDULES
        and not any(it.has("1") for it in scene.fault.offers.numbers)
    ):
        return None
    if scene.declared.origin is None:
        return (
            "days are numbers from the day on which the contracts begin; without an `origin` line "
            "no date has a number"
        )
    first = scene.declared.origin + scene.declared.start
    nested = (
        " (less the days of each `after` and `within` round it)"
        if "after" in [it.form for it in scene.open[:-1]]
        else ""
    )
    days = ordinal - first
    if days < 0:
        return (
            f"days are numbers, from {date_text(first)} on, on which the contracts begin; "
            f"{scene.token.text} is before that"
        )
    return (
        f"days are numbers, from the first day on, {date_text(first)}: {scene.token.text} is "
        f"{days} days later{nested}"
    )


def of_an_operation(scene: Scene) -> str | None:
    """An operation without its parentheses, with three operands, or with an operator that the
    language does not have.
    """
    written = scene.token.text
    if scene.operand is None or scene.fault.kind != "syntax":
        return None
    if scene.reading.text.startswith("/", scene.fault.at):
        return STRAYS["/"]
    if written == "=" and scene.last().text == "=":
        return "one `=` compares"
    left = scene.written(scene.base + scene.operand.at, scene.base + scene.operand.end)
    if (
        written in OTHER_OPERATORS
        and OTHER_OPERATORS[written]
        and scene.innermost == trees.OPERATION
    ):
        return f"`{written}` is written {OTHER_OPERATORS[written]}"
    if written not in tokens.MARKS or written in (";", ",", ":", "(", ")", "..") or len(left) > 60:
        return None
    right = scene.operand_behind() or ".."
    if scene.innermost == trees.OPERATION and len(scene.open[-1].parts) == 2:
        whole = scene.written(scene.base + scene.open[-1].at, scene.fault.at) + ")"
        return f"an operation has two operands: ({whole} {written} {right})"
    return f"an operation stands in parentheses: ({left} {written} {right})"


def of_doubled_marks(scene: Scene) -> str | None:
    """`==`, `&&` and `||`, and comparisons of other languages."""
    pair = scene.last().text + scene.token.text
    if scene.last().end == scene.fault.at and pair in ("==", "&&", "||", "<>", "=<", "=>", "><"):
        return (
            f"`{pair}` is written "
            + {"==": "=", "&&": "&", "||": "|", "<>": "!=", "=<": "<=", "=>": ">="}.get(pair, "!=")
        )
    return None


def of_a_choice(scene: Scene) -> str | None:
    """An `if` of contracts without `within`, or of expressions in the way of contracts."""
    words = scene.fault.offers.words
    if scene.token.text in ("then", ",") and "within" in words:
        return (
            "contracts say how long they look: if E within 0 then .. else .. looks today alone; "
            "numbers have if(E, a, b)"
        )
    if scene.token.text in (";", ")", ",", "") and words == ["else"] and scene.innermost == "if":
        return "an `if` of contracts has an `else`: perhaps else zero"
    return None


def of_too_many(scene: Scene) -> str | None:
    """A form with more in its parentheses than it takes, or an amount in `pay`."""
    form = scene.innermost
    if form == "pay" and scene.token.kind == tokens.NUMBER:
        return (
            f"`pay` is one unit, and the amount stands in `scale`: scale({scene.token.text}, "
            "pay(ASSET, PAYER, RECEIVER))"
        )
    if scene.token.text != ",":
        return None
    if form in ("both", "add", "min", "max"):
        return f"`{form}` takes two: {form}(a, {form}(b, c))"
    if (
        form
        in (
            "scale",
            "after",
            "cut",
            "round",
            "div",
            "widen",
            "obs",
            "model",
            "neg",
            "not",
            "if",
            "acc",
        )
    ):
        return (
            f"`{form}` has all that it takes: a `)` is missing before this comma, or there is a "
            "comma too many in it"
        )
    return None


def of_a_name(scene: Scene) -> str | None:
    """A name with a blank or another character in it, one that begins with a digit, or one of the
    language's words.
    """
    offers, last, text, at = scene.fault.offers, scene.last(), scene.reading.text, scene.fault.at
    if scene.fault.kind != "syntax":
        return None
    if (
        last.kind == tokens.NAME
        and scene.token.kind in (tokens.NAME, tokens.NUMBER)
        and is_between_names(scene)
    ):
        return f"a name has no blank: {last.text}_{scene.token.text}"
    adjacent = last.kind == tokens.NAME and last.end == at
    if (
        adjacent
        and scene.token.text == "-"
        and scene.next().kind in (tokens.NAME, tokens.NUMBER)
        and is_between_names(scene)
    ):
        return f"a name has letters, digits and `_`: {last.text}_{scene.next().text}"
    if (
        scene.token.kind == tokens.STRAY
        and at < len(text)
        and (adjacent or text[at] > "\x7f" or text[at] in ".&'" or text[at].isalpha())
    ):
        return of_a_stray_in_a_name(scene)
    if offers.new is not None and scene.token.kind == tokens.NUMBER:
        return (
            "a name does not begin with a digit: _" + re.compile("[0-9A-Za-z_]*").match(text, at)[0]
        )
    if (
        scene.token.kind == tokens.WORD
        and (offers.new is not None or (offers.names and not offers.words))
    ):
        return (
            f"`{scene.token.text}` is a word of the language, and no name: perhaps "
            f"{scene.token.text}_ or {scene.token.text.title()}"
        )
    return None


def is_between_names(scene: Scene) -> bool:
    """Whether a mark is due here, as behind a name in a list."""
    return any(mark in scene.fault.offers.marks for mark in (",", ";", ")", ":", "="))


def of_a_stray_in_a_name(scene: Scene) -> str | None:
    data, at = scene.reading.source.data, scene.fault.at
    character = data[at : at + 4].decode("utf-8", "ignore")[:1]
    if len(re.compile("[A-Za-z0-9_]*").match(scene.reading.text, at)[0]) > 64:
        return "a name has at most 64 characters"
    return (
        f"a name has letters from A to Z and a to z, digits and `_`, and `{character}` is none"
        if character.strip()
        else None
    )


def of_a_word(scene: Scene) -> str | None:
    """A word that is written in another way, or stands too late."""
    written, words = scene.token.text, scene.fault.offers.words
    if scene.fault.kind != "syntax" or not written.isidentifier():
        return None
    if written in ORDER[1:] and scene.is_first and written not in words:
        return (
            f"`{written}` stands too late, or once too often: the order is {' '.join(ORDER[1:])}; "
            "num and flag may be mixed"
        )
    found = nearest(written, words)
    return f"is `{found}` meant?" if found and found != written else None


def of_a_missing_mark(scene: Scene) -> str | None:
    """A semicolon or a parenthesis that is missing before the next statement or word."""
    marks, written = scene.fault.offers.marks, scene.token.text
    begins = (
        written in ORDER
        or (scene.reading.grammar is SCHEDULES and written in SCHEDULES.definitions)
        or written in ("code", "")
    )
    if begins and ";" in marks:
        return f"a `;` is missing behind `{scene.last().text}`"
    if (
        ")" in marks
        and (begins or written in (";", "then", "else", "within", "upto", "in", "against", "until"))
    ):
        return f"a `)` is missing: {opened(scene)}"
    if written == ")" and not scene.open:
        return "there is a `)` too many"
    if written == ";" and scene.open and not marks:
        return f"something is missing before `;`: {opened(scene)}"
    if written == "" and scene.token.kind == tokens.END and scene.before:
        return "the text ends within a statement"
    return None


def opened(scene: Scene) -> str:
    """Where the innermost open term begins."""
    if not scene.open:
        return "nothing is open"
    place = scene.reading.source.place(scene.base + scene.open[-1].at)
    return f"`{scene.open[-1].form}` of line {place.line}, column {place.column} is open"


def of_a_version(scene: Scene) -> str | None:
    """What only version 2 has, or a version that there is not."""
    if scene.reading.grammar is not PORTFOLIO:
        return (
            "code files and schedule files have version 1 alone"
            if scene.last().text in ("payoff", "schedules")
            else None
        )
    if scene.last().text == "portfolio" and scene.last(2).kind == tokens.END:
        return "the versions are 1 and 2"
    if scene.declared.version == 1 and scene.token.text == ":" and scene.statement.word == "asset":
        return "decimals of an asset are of version 2: begin the text with portfolio 2;"
    if (
        scene.declared.version == 1
        and scene.token.text == "+"
        and scene.innermost in ("after", "if")
    ):
        return "sums of days are of version 2: begin the text with portfolio 2;"
    return None


def of_a_range(scene: Scene) -> str | None:
    """The bounds of a label with something else between them."""
    if scene.statement.word == "num" and ".." in scene.fault.offers.marks:
        return "two points stand between the bounds, as in 0.5000 .. 2.0000"
    if (
        scene.statement.word == "num"
        and scene.last().kind == tokens.NAME
        and scene.fault.offers.marks == [":"]
    ):
        return (
            f"a number that is observed has its decimals and its bounds: num {scene.last().text} : "
            "4 in 0.5000 .. 2.0000;"
        )
    return None


def of_unknown(scene: Scene) -> str | None:
    """A name that is not declared in its set, or not bound."""
    if scene.fault.kind != "unknown":
        return None
    name, kind = scene.token.text, scene.set_of(scene.token.text)
    known = [it for names in scene.fault.offers.names.values() for it in names]
    if (
        kind is NameSet.LABEL
        and not scene.fault.offers.names.keys() & {"labels", "numbers", "flags"}
    ):
        read = "model" if scene.reading.grammar is CODE else "obs"
        return f"a rate is observed on a day: {read}({name}, 0)"
    if found := nearest(name, known):
        return f"is {found} meant?"
    if kind is NameSet.LABEL:
        return f"{name} is a {'flag' if scene.declared.names(kind)[name].is_flag else 'number'}"
    return f"{name} is {article(kind.value)}" if kind else None


def of_twice(scene: Scene) -> str | None:
    """A name that is declared again."""
    if scene.fault.kind != "twice":
        return None
    for at, statement in scene.reading.statements():
        for declared in statement.declared:
            if (
                declared.name == scene.token.text
                and at + declared.at < scene.fault.at
                and statement.word == scene.statement.word
            ):
                return (
                    f"{declared.name} is declared in line "
                    f"{scene.reading.source.place(at + declared.at).line} already"
                )
    return None


def of_depth(scene: Scene) -> str | None:
    """A term that stands too deep."""
    if scene.fault.kind != "deep":
        return None
    most = 400 if scene.reading.grammar is CODE else 200
    return (
        f"{most} terms are open here, the most that a text may have: write a long `both` or sum as "
        "a balanced tree, half and half"
    )


CURES: tuple[Cure, ...] = (
    of_no_text,
    of_twice,
    of_unknown,
    of_depth,
    of_a_comment,
    of_a_comma,
    of_a_date,
    of_a_version,
    of_doubled_marks,
    of_a_choice,
    of_a_range,
    of_a_number,
    of_an_operation,
    of_too_many,
    of_a_name,
    of_a_missing_mark,
    of_a_word,
)
