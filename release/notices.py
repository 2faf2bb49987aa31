"""What the program is made from: its texts with their checksum, and the notices of the crates of the toolchain that are linked into it."""
import glob
import hashlib
import os
import re

from contents import TOP, Refusal, read

HEAD = """Notices of what is linked into the program beside its own sources, as they are in the folder of the toolchain.
A text that is that of several crates is here once.
"""
OWN = "These parts of the toolchain are linked in as well. In its folder there is no licence file of theirs:"


def crates() -> dict[str, list[str]]:
    """The crates of the repository, each with what it uses."""
    lines = [line.split("#")[0].split(":") for line in read("crates.txt").decode().splitlines()]
    return {it[0].split()[0]: it[1].split() for it in lines if len(it) == 2}


def below(crate: str) -> set[str]:
    """All that a crate stands on by crates.txt, with itself."""
    uses, found, open_ones = crates(), set(), {crate}
    while open_ones:
        found |= open_ones
        open_ones = {it for name in open_ones for it in uses.get(name, ())} - found
    return found


def used_by(crate: str, folder: str) -> set[str]:
    """The crates of the toolchain that one of them names in its sources."""
    found = set()
    for path in glob.glob(os.path.join(folder, crate, "src", "**", "*.rt"), recursive=True):
        with open(path, encoding="utf-8") as file:
            text = re.sub(r"//.*", "", file.read())
        found |= set(re.findall(r"\b([a-z_0-9]+)::", text)) | set(re.findall(r"\buse ([a-z_0-9]+)", text))
    own = {os.path.basename(it).removesuffix(".rt") for it in glob.glob(os.path.join(folder, crate, "src", "*"))}
    return {it for it in found - own if os.path.isdir(os.path.join(folder, it, "src"))}


def licences(crate: str, folder: str) -> list[str]:
    return sorted(glob.glob(os.path.join(folder, crate, "LICENSE*")) + glob.glob(os.path.join(folder, crate, "NOTICE*")))


def linked_in(folder: str) -> tuple[list[str], list[str]]:
    """The crates that are linked in and have licence files, and the toolchain's own parts, which have none."""
    open_ones = below("tilugba") - set(crates())
    found, own = set(), {"core", "std"}
    while open_ones:
        crate = open_ones.pop()
        if licences(crate, folder):
            found.add(crate)
            open_ones |= used_by(crate, folder) - found - own
        else:
            own.add(crate)
    return sorted(found), sorted(own)


def notices(folder: str) -> str:
    """The text of all of them, from the folder of the toolchain."""
    if not os.path.isdir(folder):
        raise Refusal(f"the toolchain has no folder {folder}, so there are no notices of what is linked in")
    found, own = linked_in(folder)
    texts: dict[str, list[str]] = {}
    for crate in found:
        for path in licences(crate, folder):
            with open(path, encoding="utf-8") as file:
                texts.setdefault(file.read().strip(), []).append(f"{crate} ({os.path.basename(path)})")
    parts = [HEAD, *(f"{'-' * 80}\n{', '.join(names)}\n\n{text}\n" for text, names in texts.items())]
    return "\n".join([*parts, "-" * 80, OWN, ", ".join(own), ""])


def sum_of(data: bytes) -> str:
    return hashlib.sha256(data).hexdigest()


def sum_of_sources(crate: str) -> str:
    """The sum of the texts as they are, as tools/build-program and tools/build-library note it."""
    lines = [f"{sum_of(read(path))}  {path}\n" for path in sources_of(crate)]
    return sum_of("".join(lines).encode())


def sources_of(crate: str) -> list[str]:
    """The texts that a program or a library is made from, as tools/build-program lists them."""
    found = ["HANDLES", "crates.txt"]
    for name in below(crate) & set(crates()):
        for part in ("src", "specs", "proofs"):
            found += glob.glob(f"crates/{name}/{part}/**/*", root_dir=TOP, recursive=True)
    is_text = re.compile(r".*\.(rt|antt)|(.*/)?(HANDLES|crates\.txt)")
    return sorted(it for it in found if is_text.fullmatch(it) and os.path.isfile(os.path.join(TOP, it)))
