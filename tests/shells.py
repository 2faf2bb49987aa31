"""What real shells offer behind a line: each is started in a terminal of its own, and all that it offers is put into the line,
which a function of the program's name then prints.
"""
import os
import pty
import re
import select
import subprocess
import time

HERE = os.path.dirname(os.path.abspath(__file__))
# What each shell is given: a file, or the folder of it.
COMPLETIONS = {
    "bash": os.path.join(HERE, "..", "completions", "tilugba.bash"),
    "zsh": os.path.join(HERE, "..", "completions"),
    "fish": os.path.join(HERE, "..", "completions", "tilugba.fish"),
}
# Prints its words, each on a line of its own between marks.
SHOW = """tilugba() { printf 'begin\\n'; printf '<%s>\\n' "$@"; printf 'end\\n'; }"""
PATIENCE = 20


class Terminal:
    """A shell in a terminal, which is typed to and read from."""

    def __init__(self, words: list[str], folder: str):
        self.pid, self.file = pty.fork()
        if self.pid == 0:
            os.chdir(folder)
            os.environ.update(TERM="dumb", PS1="", HOME=folder, COLUMNS="400", INPUTRC="/dev/null")
            os.execvp(words[0], words)

    def type(self, text: str) -> None:
        os.write(self.file, text.encode())

    def read_until(self, pattern: str) -> str:
        """What the shell says, up to where a pattern is in it."""
        said, end = "", time.monotonic() + PATIENCE
        while not re.search(pattern, said):
            left = end - time.monotonic()
            if left <= 0 or not select.select([self.file], [], [], left)[0]:
                raise TimeoutError(said)
            said += os.read(self.file, 65536).decode("utf-8", "replace")
        return said

    def close(self) -> None:
        os.close(self.file)
        os.waitpid(self.pid, 0)


class Typed:
    """A shell in which `key` puts all that is offered into the line."""

    def __init__(self, words: list[str], setting: str, key: str, folder: str):
        self.terminal, self.key = Terminal(words, folder), key
        self.terminal.type(f"stty -echo\n{SHOW}\n{setting}\nprintf 'rea%s\\n' dy\n")
        self.terminal.read_until("ready\r?\n")

    def offers(self, line: str) -> list[str]:
        """What is offered behind the line, which is begun with the program's name; a shell adds blanks and quotes as it likes."""
        self.terminal.type(line + self.key)
        time.sleep(0.05)
        self.terminal.type("\n")
        said = self.terminal.read_until("begin\r?\n(.*\r?\n)*?end\r?\n")
        words = re.findall(r"^<(.*)>\r?$", said[said.rindex("begin") :], re.M)
        typed = len(line.split(" ")) - 2
        return words[typed:]

    def close(self) -> None:
        self.terminal.close()


def bash(folder: str) -> Typed:
    setting = "bind 'set enable-bracketed-paste off'\nbind '\"\\C-t\": insert-completions'\n" + f"source '{COMPLETIONS['bash']}'"
    return Typed(["bash", "--norc", "--noprofile", "-i"], setting, "\x14", folder)


def zsh(folder: str) -> Typed:
    setting = f"""fpath=('{COMPLETIONS['zsh']}' $fpath); autoload -Uz compinit; compinit -u -D
unsetopt nomatch beep; unset zle_bracketed_paste
zstyle ':completion:all-matches::::' completer _all_matches _complete
zstyle ':completion:all-matches:*' insert yes
zstyle ':completion:*' verbose no
zle -C all-matches complete-word _generic; bindkey -e; bindkey '^T' all-matches"""
    return Typed(["zsh", "-f", "-i"], setting, "\x14", folder)


class Fish:
    """Fish tells by itself what it offers."""

    def __init__(self, folder: str):
        self.folder = folder

    def offers(self, line: str) -> list[str]:
        script = f"source '{COMPLETIONS['fish']}'; complete -C '{line}'"
        environment = {**os.environ, "HOME": self.folder, "XDG_CONFIG_HOME": self.folder, "XDG_DATA_HOME": self.folder}
        done = subprocess.run(
            ["fish", "--no-config", "-c", script], cwd=self.folder, env=environment, capture_output=True, text=True, check=False, timeout=60
        )
        return [it.split("\t")[0] for it in done.stdout.splitlines()]

    def close(self) -> None:
        """There is nothing to end."""


SHELLS = {"bash": bash, "zsh": zsh, "fish": Fish}
