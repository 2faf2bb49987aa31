"""What pages and completions say of the commands, as lines that are made of the table of commands."""
import os
import re
import textwrap

from command_table import SETTING, Command, Kind, Option, Table

# Wider lines than this are not shown as what an example prints.
WIDTH = 76
# Wider lines are cut on the page of a command.
PAGE_WIDTH = 110
# What follows `=` in the form of a setting, and what comes before it.
TEMPLATE, DAYS = SETTING.split("=")


def readme_rows(table: Table) -> list[str]:
    """The table of commands in README.md."""
    rows = [f"| [`{it.form()}`](docs/commands/{it.name}.md) | {it.does} |" for it in table.commands.values()]
    return ["| Command | Prints |", "|---|---|", *rows]


# ---- The page of a command


def prose(page: str, first: str) -> str:
    """What a command does, as its page tells it: the text between the heading and the line with which the made part begins."""
    text = page.partition("\n")[2].partition(first)[0]
    return " ".join(re.sub(r"\[([^\]]*)\]\([^)]*\)", r"\1", text).replace("`", "").split())


def page_lines(command: Command, table: Table, examples: str) -> list[str]:
    """The made part of docs/commands/NAME.md: the form, the words, the statuses with their causes, and an example that is run."""
    rows = [f"| `{it.word}` | {it.what}{'' if it.is_needed else '; optional'} |" for it in command.files]
    rows += ["| `NUMBER` | a number from 1 to 10,000 |"] if command.has_number else []
    rows += [f"| `{SETTING}` | {table.kinds['setting'].what}; optional, and may be repeated |"] if command.has_settings else []
    rows += [option_row(it) for it in command.options]
    statuses = [f"| {it.number} | {it.why} |" for it in command.statuses]
    return [
        "",
        *["```", f"tilugba {command.form()}", "```", ""],
        *["| Word | What it is |", "|---|---|", *rows, ""],
        *["## Statuses", "", "| Status | Cause |", "|---|---|", *statuses, ""],
        *["## Example", "", "```console", *page_example(command.example, examples), "```", ""],
    ]


def option_row(option: Option) -> str:
    what = option.kind.what if option.kind else "a flag, without a word"
    choices = f": {', '.join(f'`{it}`' for it in option.kind.choices)}" if option.kind and option.kind.choices else ""
    return f"| `{f'--{option.name} {option.word}'.rstrip()}` | {what}{choices}{'' if option.is_needed else '; optional'} |"


def page_example(name: str, examples: str) -> list[str]:
    """The command of an example as it is typed at the top of the repository, and what it prints."""
    folder = os.path.join(examples, name)
    with open(os.path.join(folder, "command"), encoding="utf-8") as file:
        words = [word if not os.path.exists(os.path.join(folder, word)) else place(name, word) for word in file.read().splitlines()]
    with open(os.path.join(folder, "output"), encoding="utf-8") as file:
        output = file.read().splitlines()
    end = f" | cut -c 1-{PAGE_WIDTH}" if any(len(it) > PAGE_WIDTH for it in output) else ""
    typed = textwrap.wrap(" ".join(["./tilugba", *words]) + end, PAGE_WIDTH, break_long_words=False, break_on_hyphens=False)
    typed = [f"$ {typed[0]}", *(f">   {it}" for it in typed[1:])]
    return [*(f"{it} \\" for it in typed[:-1]), typed[-1], *(it[:PAGE_WIDTH] for it in output)]


def place(example: str, word: str) -> str:
    """A file of an example, by its path from the top."""
    return os.path.normpath(os.path.join("examples", example, word))


# ---- The man page


def escaped(text: str) -> str:
    """A text for roff, in which a hyphen is that of the keyboard."""
    text = text.replace("\\", "\\e").replace("-", "\\-")
    return "\\&" + text if text[:1] in (".", "'") else text


def sentences(text: str) -> list[str]:
    """Each sentence on a line of its own, with the hyphens of options as those of the keyboard."""
    return [re.sub(r"--(\w)", r"\\-\\-\1", it) for it in re.split(r"(?<=[.!?]) +", text)]


def option_line(option: Option) -> str:
    word = f" Ar {option.word.lower()}" if option.word else ""
    needed = f"Fl Fl {option.name}{word}"
    return f".{needed}" if option.is_needed else f".Op {needed}"


def synopsis(command: Command) -> list[str]:
    """The form of a command in the section SYNOPSIS."""
    lines = [".Nm", f".Cm {command.name}"]
    lines += [f".Ar {it.name}" if it.is_needed else f".Op Ar {it.name}" for it in command.files]
    lines += [".Ar number"] if command.has_number else []
    lines += [f".Op Ar {TEMPLATE} Ns = Ns Ar {DAYS} ..."] if command.has_settings else []
    return lines + [option_line(it) for it in command.options]


def described(command: Command, table: Table, told: str) -> list[str]:
    """A command in the section COMMANDS, as its page tells it, with the statuses that are its own."""
    lines = [f".It Cm {command.name}", *sentences(told)]
    own = [it for it in command.statuses if it.number not in table.always]
    if own:
        lines += [".Bl -tag -width 4n -compact", *(row for it in own for row in (f".It {it.number}", it.why)), ".El"]
    return lines


def printed(folder: str) -> list[str]:
    """What an example prints, if it is narrow and short enough to be shown."""
    with open(os.path.join(folder, "output"), encoding="utf-8") as file:
        lines = file.read().splitlines()
    return lines if len(lines) <= 12 and all(len(it) <= WIDTH for it in lines) else []


def command_lines(folder: str) -> list[str]:
    """The command of an example as one types it, over several lines if it is long."""
    with open(os.path.join(folder, "command"), encoding="utf-8") as file:
        words = " ".join(["tilugba", *file.read().splitlines()])
    lines = textwrap.wrap(words, WIDTH - 4, break_long_words=False, break_on_hyphens=False)
    return [*(f"{it} \\" for it in lines[:-1]), lines[-1]]


def example(command: Command, folder: str) -> list[str]:
    """A command in the section EXAMPLES."""
    first, *more = command_lines(folder)
    output = printed(folder)
    shown = [f"$ {first}", *(f"    {it}" for it in more), *output]
    head = ["In", f".Pa examples/{command.example} :"] if output else ["In", f".Pa examples/{command.example} ,", "without its long output:"]
    return [*head, ".Bd -literal -offset 2n", *map(escaped, shown), ".Ed"]


def man_parts(table: Table, examples: str, told: dict[str, str]) -> list[list[str]]:
    """The sections of tilugba(1) that are made, where `told` has what each command does: SYNOPSIS, COMMANDS, EXIT STATUS and EXAMPLES."""
    commands = table.commands.values()
    parts = [
        [".Sh SYNOPSIS", *(line for it in commands for line in synopsis(it))],
        [".Sh COMMANDS", ".Bl -tag -width Ds", *(line for it in commands for line in described(it, table, told[it.name])), ".El"],
        [".Sh EXIT STATUS", ".Bl -tag -width 4n -compact", *status_lines(table), ".El"],
    ]
    shown = [example(it, os.path.join(examples, it.example)) for it in commands]
    return parts + [[".Sh EXAMPLES", *(line for it in shown for line in [*it, ".Pp"])][:-1]]


def status_lines(table: Table) -> list[str]:
    told = [it for it in table.statuses.values() if not it.of]
    return [line for it in told for line in (f".It {it.number}", it.meaning)]


# ---- Completions


def quoted(words: list[str]) -> str:
    return "'" + " ".join(words) + "'"


def kinds_used(table: Table) -> dict[str, Kind]:
    """The kinds of words that options take."""
    return {it.kind.name: it.kind for command in table.commands.values() for it in command.options if it.kind}


def bash_lines(table: Table) -> list[str]:
    """The table of commands for bash."""
    lines = [f"_tilugba_commands={quoted(list(table.commands))}", ""]
    lines += ["# Sets how many files a command takes, whether it has settings, and its options, each with what it takes."]
    lines += ["_tilugba_command() {", "  case $1 in"]
    for command in table.commands.values():
        options = [f"--{it.name}" + (f":{it.kind.name}" if it.kind else "") for it in command.options]
        parts = [f"files={len(command.files)}" if not command.has_number else "files=1"]
        parts += ["settings=1"] if command.has_settings else []
        parts += [f"options={quoted(options)}"] if options else []
        lines.append(f"    {command.name}) {' '.join(parts)} ;;")
    lines += ["  esac", "}", "", "# Sets what there is for a kind of word: choices, or the word that declares its names."]
    lines += ["_tilugba_kind() {", "  case $1 in"]
    for kind in kinds_used(table).values():
        if kind.choices:
            lines.append(f"    {kind.name}) choices={quoted(list(kind.choices))} ;;")
        elif kind.names:
            lines.append(f"    {kind.name}) declares={kind.names} ;;")
    return lines + ["  esac", "}"]


def zsh_lines(table: Table) -> list[str]:
    """The table of commands for zsh."""
    lines = ["typeset -ga _tilugba_commands=("]
    lines += [f"  '{it.name}:{it.short}'" for it in table.commands.values()]
    flags = sorted({f"--{it.name}" for command in table.commands.values() for it in command.options if not it.kind})
    lines += [")", f"typeset -ga _tilugba_flags=({' '.join(flags)})", "", "_tilugba_arguments() {", "  case $1 in"]
    for command in table.commands.values():
        specs = [f"'{'' if it.is_needed else ':'}:{it.name}:_files'" for it in command.files]
        specs += ["'*:days of a template:_tilugba_settings'"] if command.has_settings else []
        specs += [zsh_option(it) for it in command.options]
        specs += ["':number:'"] if command.has_number else []
        lines += [f"    {command.name})", f"      _arguments {specs[0]}" + (" \\" if specs[1:] else "")]
        lines += [f"        {it} \\" for it in specs[1:-1]] + [f"        {it}" for it in specs[1:][-1:]]
        lines.append("      ;;")
    return lines + ["  esac", "}"]


def zsh_option(option: Option) -> str:
    if not option.kind:
        return f"'--{option.name}'"
    action = f"({' '.join(option.kind.choices)})" if option.kind.choices else ""
    action = f"_tilugba_declared {option.kind.names}" if option.kind.names else action
    return f"'--{option.name}=:{option.kind.name}:{action}'"


def fish_lines(table: Table) -> list[str]:
    """The rules of completion for fish."""
    flags = sorted({f"--{it.name}" for command in table.commands.values() for it in command.options if not it.kind})
    lines = [f"set -g __tilugba_flags {' '.join(flags)}"]
    for command in table.commands.values():
        files = len(command.files)
        lines += ["", f"complete -c tilugba -n __tilugba_is_first -a {command.name} -d '{command.short}'"]
        lines += [f"complete -c tilugba -n '__tilugba_takes_file {command.name} {files}' -F"] if files else []
        lines += [fish_option(command, it) for it in command.options]
        if command.has_settings:
            rule = f"complete -c tilugba -n '__tilugba_has_files {command.name} {files}'"
            lines.append(f"{rule} -a '(__tilugba_declared template)=' -d 'days of a template'")
    return lines


def fish_option(command: Command, option: Option) -> str:
    rule = f"complete -c tilugba -n '__tilugba_is {command.name}' -l {option.name}"
    if not option.kind:
        return rule
    action = f" -a '{' '.join(option.kind.choices)}'" if option.kind.choices else ""
    action = f" -a '(__tilugba_declared {option.kind.names})'" if option.kind.names else action
    return f"{rule} -x{action} -d '{option.kind.what}'"
