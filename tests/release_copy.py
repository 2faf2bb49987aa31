"""A package of a release in a copy of the repository, whose program is a script and whose toolchain proves nothing: when it is made, and
when it is refused.
"""
import gzip
import hashlib
import json
import os
import resource
import shutil
import subprocess
from collections.abc import Callable

TOP = os.path.normpath(os.path.join(os.path.dirname(os.path.abspath(__file__)), ".."))
PARTS = (
    *("README.md", "CHANGELOG.md", "CONTRIBUTING.md", "LICENSE", "VERSION", "HANDLES", "commands.toml"),
    *("docs", "examples", "man", "completions", "editors", "desk", "include", "rust"),
)
SCRIPTS = ("release", "tools")
# It makes a library or the program where the real one does, the program of its one text, and has a guide in its folder.
TOOLCHAIN = """#!/bin/sh
case $1 in
  version) echo 'a toolchain 1' ;;
  doc) echo "${0%/*}/guide.md" ;;
  lib) mkdir -p out/rlib && : >out/rlib/texts ;;
  run) mkdir -p out && { printf '#!/bin/sh\\necho '; cat src/main.rt; } >out/tilugba && chmod +x out/tilugba ;;
esac
"""
FILES = ["SHA256SUMS", "tilugba-1.0.0-x86_64-linux.tar.gz", "tilugba.made", "tilugba_1.0.0_amd64.deb"]
# What a release has besides where the page and the library for aarch64 were built.
FILES_ELSEWHERE = ["tilugba-1.0.0-aarch64-linux.tar.gz", "tilugba-page-1.0.0.tar.gz", "tilugba_1.0.0_arm64.deb"]
Judge = Callable[..., None]


class Copy:
    """The copy, and commands in it."""

    def __init__(self, room: str):
        self.top = os.path.join(room, "a copy")
        self.tools = os.path.join(room, "toolchain")
        os.makedirs(self.top)
        for name in PARTS + SCRIPTS:
            path = os.path.join(TOP, name)
            if os.path.isdir(path):
                shutil.copytree(path, os.path.join(self.top, name), ignore=shutil.ignore_patterns("__pycache__"))
            else:
                shutil.copy(path, os.path.join(self.top, name))
        self.put("crates.txt", "low: clap\ntilugba: low\ntilugba_c staticlib: low\n")
        self.put("crates/low/src/lib.rt", "low\n")
        self.put("crates/tilugba/src/main.rt", "first\n")
        self.put("crates/tilugba_c/src/lib.rt", "first\n")
        self.put("tools/toolchain", "a toolchain 1\n")
        self.put(".gitignore", "crates/*/out/\n/built/\n")
        self.make_toolchain()
        self.git("init", "-q")
        self.commit()

    def make_toolchain(self) -> None:
        rt = os.path.join(self.tools, "rt")
        self.put(rt, TOOLCHAIN)
        os.chmod(rt, 0o755)
        self.put(os.path.join(self.tools, "rattle/clap/LICENSE-MIT"), "The licence of clap.\n")
        self.put(os.path.join(self.tools, "rattle/clap/src/lib.rt"), "use strsim::near;\nuse std::text;\n")
        self.put(os.path.join(self.tools, "rattle/strsim/src/lib.rt"), "near\n")
        self.put(os.path.join(self.tools, "rattle/strsim/LICENSE"), "The licence of strsim.\n")

    def put(self, path: str, text: str) -> None:
        path = os.path.join(self.top, path)
        os.makedirs(os.path.dirname(path), exist_ok=True)
        with open(path, "w", encoding="utf-8") as file:
            file.write(text)

    def run(self, *words: str, path: str | None = None, **how) -> subprocess.CompletedProcess:
        path = f"{self.tools}:{os.environ['PATH']}" if path is None else path
        environment = {**os.environ, "PATH": path}
        how = {"stdin": subprocess.DEVNULL, "capture_output": True, "text": True, "check": False, "timeout": 300, **how}
        return subprocess.run(words, cwd=self.top, env=environment, **how)

    def git(self, *words: str) -> None:
        named = ["-c", "user.name=a tester", "-c", "user.email=a@tester.example", "-c", "commit.gpgsign=false"]
        self.run("git", *named, *words)

    def commit(self) -> None:
        self.git("add", "-A")
        self.git("commit", "-q", "-m", "as it stands")

    def build(self) -> None:
        self.run("tools/build-program")

    def build_library(self, made: str = "proved, and compiled by llvm") -> None:
        """Writes what tools/build-library would write of the texts as they are: the toolchain here makes no archive."""
        files = {"libtilugba.a": "an archive\n", "libtilugba.so": "a library\n"}
        told = {"sources": self.sum_for_library(), "toolchain": "a toolchain 1", "made": made}
        for name, text in files.items():
            self.put(f"built/{name}", text)
            told[name] = hashlib.sha256(text.encode()).hexdigest()
        self.put("built/libtilugba.made", "".join(f"{name}: {text}\n" for name, text in told.items()))

    def sum_for_library(self) -> str:
        """The sum of the texts, by the code of tools/build-library."""
        code = "from pathlib import Path; from building.sources import Sources; print(Sources(Path('..'), 'tilugba_c').sum())"
        return subprocess.run(["python3", "-Bc", code], cwd=os.path.join(self.top, "tools"), capture_output=True, text=True, check=True).stdout.strip()

    def build_elsewhere(self, is_proved: bool = True) -> None:
        """What tools/build-page makes, in small."""
        commit = self.run("git", "rev-parse", "HEAD").stdout.strip()
        for name, made in (("page", "tilugba.wasm"), ("aarch64", "tilugba")):
            self.put(f"built/{name}/{made}", "made elsewhere\n")
            self.put(f"built/{name}/made.json", json.dumps({"proved": is_proved, "commit": commit}))

    def forget(self, *names: str) -> None:
        for name in names:
            shutil.rmtree(os.path.join(self.top, "built", name))

    def package(self, **how) -> subprocess.CompletedProcess:
        return self.run("release/package", **how)

    def made(self) -> dict[str, bytes]:
        """The files of the package, by their names."""
        folder = os.path.join(self.top, "built", "release")
        found = {}
        for name in sorted(os.listdir(folder)) if os.path.isdir(folder) else []:
            with open(os.path.join(folder, name), "rb") as file:
                found[name] = file.read()
        return found


def small_files() -> None:
    resource.setrlimit(resource.RLIMIT_FSIZE, (1000, 1000))


def try_releases(room: str, judge: Judge) -> None:
    """Makes a package of a release, and tries each cause of a refusal."""
    copy = Copy(room)
    before: dict[str, bytes] = {}

    def refuses(title: str, why: str, **how) -> None:
        done = copy.package(**how)
        is_one_line = done.stderr.count("\n") == 1 and why in done.stderr
        judge(f"{title}, its line", done.returncode == 1 and is_one_line and not done.stdout, done)
        judge(f"{title}, what was there", copy.made() == before, list(copy.made()))

    refuses("no program", "there is no built/tilugba")
    copy.build()
    refuses("no library", "there is no library with its record in built")
    copy.build_library("compiled with nothing proved")
    refuses("a library that is not proved", "built/libtilugba.so was compiled with nothing proved")
    copy.build_library()
    done = copy.package()
    before = copy.made()
    judge("a release", done.returncode == 0 and list(before) == FILES and not done.stderr, done)
    try_record(copy, before, judge)
    copy.package()
    judge("the same release again", copy.made() == before)
    copy.build_elsewhere()
    done = copy.package()
    with_all = copy.made()
    judge("a release for all", done.returncode == 0 and list(with_all) == sorted(FILES + FILES_ELSEWHERE), done)
    told = with_all["tilugba.made"].decode()
    judge("the record of a release for all", "\nmodule: " in told and "\nprogram of aarch64: " in told, told)
    judge("the processor of the package", b"made elsewhere" in gzip.decompress(with_all["tilugba-page-1.0.0.tar.gz"]))
    of_first, before = before, with_all
    copy.build_elsewhere(is_proved=False)
    refuses("a page that is not proved", "page is not of the proved crate of this commit")
    copy.put("built/page/made.json", "{")
    refuses("a page that is no page", "page is not as tools/build-page makes it")
    copy.forget("page", "aarch64", "release")
    copy.package()
    before = of_first
    judge("a release without them again", copy.made() == before)
    refuses("no toolchain", "there is no rt in the PATH", path="/usr/bin:/bin")
    refuses("a full disk", "cannot be written to: File too large", preexec_fn=small_files)
    copy.put("crates/low/src/lib.rt", "low, changed\n")
    refuses("a change", "the tree is not committed: M crates/low/src/lib.rt")
    copy.put("note", "\n")
    refuses("a change and a new file", "the tree is not committed: M crates/low/src/lib.rt and others")
    copy.commit()
    refuses("other sources", "built/tilugba is the program of other sources")
    copy.build()
    refuses("a library of other sources", "built/libtilugba.so is the library of other sources")
    copy.build_library()
    copy.put("built/libtilugba.so", "another\n")
    refuses("another library", "built/libtilugba.so is not as it was built")
    copy.build_library()
    copy.put("built/tilugba", "another\n")
    refuses("another program", "built/tilugba is not as it was built")
    copy.put("VERSION", "1.0\n")
    copy.commit()
    copy.build()
    refuses("no version", "VERSION is no version: 1.0")
    os.unlink(os.path.join(copy.top, "VERSION"))
    copy.commit()
    refuses("no file VERSION", "VERSION is not read: No such file")


def try_record(copy: Copy, made: dict[str, bytes], judge: Judge) -> None:
    """The record says what the package was made of, by the sums that the build has written."""
    told = dict(line.split(": ", 1) for line in made["tilugba.made"].decode().splitlines())
    commit = copy.run("git", "rev-parse", "HEAD").stdout.strip()
    with open(os.path.join(copy.top, "built", "sums"), encoding="ascii") as file:
        sources, _, program, _ = file.read().split()
    wanted = {"version": "1.0.0", "commit": commit, "toolchain": "a toolchain 1", "sources": sources, "program": program}
    for name in ("libtilugba.a", "libtilugba.so"):
        with open(os.path.join(copy.top, "built", name), "rb") as file:
            wanted[name] = hashlib.sha256(file.read()).hexdigest()
    judge("the record of a release", {**wanted, "date": told["date"]} == told, told)
    sums = "".join(f"{hashlib.sha256(data).hexdigest()}  {name}\n" for name, data in sorted(made.items()) if name != "SHA256SUMS")
    judge("the sums of a release", made["SHA256SUMS"].decode() == sums, sums)
