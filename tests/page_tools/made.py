"""What tools/build-page refuses, and what the page reads from the sources."""
from __future__ import annotations

import json
import shutil
import sys
from collections.abc import Callable

from .bench import TOP, Bench

sys.path.insert(0, str(TOP / "tools"))
from building import elsewhere, page, recipes, retarget, toolchain, wasm
from building.sources import Stop

# A module as the toolchain lowers one, in small.
GOOD = f"""target datalayout = "{retarget.LAYOUT_OF_X86}"
target triple = "x86_64-unknown-linux-gnu"
@static.0 = private unnamed_addr constant [1 x i8] c"a", align 1
define noundef i32 @tilugba_run(ptr noundef %a0) #0 {{
  call void @rattle_dealloc(ptr noundef %a0)
  ret i32 0
}}
declare void @rattle_dealloc(ptr noundef) #1
declare void @llvm.trap() #2
attributes #0 = {{ nounwind {retarget.OF_X86} }}
attributes #1 = {{ nobuiltin nounwind }}
attributes #2 = {{ cold noreturn nounwind memory(inaccessiblemem: write) }}
"""
# What is changed in it, and what is said of that.
REFUSED = [
    ("declare void @llvm.trap()", "declare i64 @clock()", "external, clock"),
    ("@llvm.trap()", "@llvm.x86.rdtsc()", "intrinsic, llvm.x86.rdtsc"),
    ("nobuiltin nounwind", 'nobuiltin nounwind "target-features"="+avx"', "attribute"),
    ("nobuiltin nounwind", "nobuiltin nounwind uwtable", "attribute, uwtable"),
    ("  ret i32 0", '  call void asm "nop", ""()\n  ret i32 0', "inline assembly"),
    ("private unnamed_addr constant", "internal global", "variable"),
    ("p270:32:32-p271", "p271", "layout"),
    ("define noundef i32 @tilugba_run", "define internal i32 @tilugba_run", "exports"),
    ("target triple", "; target triple", "triple"),
]
# Sections of a module of WebAssembly: it imports a function of its host, or exports it.
TYPES = bytes([1, 4, 1, 0x60, 0, 0])
IMPORT = bytes([2, 7, 1, 1, 97, 1, 98, 0, 0])


def refusal(call: Callable[[], object]) -> str:
    """Why something is refused; nothing if it is not."""
    try:
        call()
    except Stop as stop:
        return str(stop)
    return ""


def try_retarget(bench: Bench) -> None:
    for target in (retarget.WASM64, retarget.AARCH64):

        def taken(text: str) -> str:
            return "".join(retarget.retargeted(text.splitlines(True), target))

        said = refusal(lambda: taken(GOOD))
        bench.judge(not said, f"a good module is refused: {said}")
        made = taken(GOOD)
        holds = "x86-64" not in made and target.triple in made and target.layout in made
        bench.judge(holds, f"a module for {target.triple} is {made}")
        for old, new, wanted in REFUSED:
            bench.judge(old in GOOD, f"{old} is not in the module")
            said = refusal(lambda: taken(GOOD.replace(old, new)))
            bench.judge(wanted in said, f"{new}: wanted a word of {wanted}, got {said!r}")


def exporting(*names: str) -> bytes:
    """A module that exports its memory under names."""
    rows = b"".join(bytes([len(it)]) + it.encode() + bytes([2, 0]) for it in names)
    body = bytes([len(names)]) + rows
    return wasm.MAGIC + bytes([5, 3, 1, 0, 1, 7, len(body)]) + body


def try_hold(bench: Bench) -> None:
    """A module that imports anything, or exports other names than those of the list."""
    good = sorted(elsewhere.EXPORTS)
    said = refusal(lambda: elsewhere.hold(exporting(*good, "__heap_base")))
    bench.judge(not said, f"the exports of the list are refused: {said}")
    for names in (good[1:], [*good, "more"]):
        said = refusal(lambda: elsewhere.hold(exporting(*names)))
        bench.judge("exports" in said, f"the exports {names}: {said!r}")
    said = refusal(lambda: elsewhere.hold(wasm.MAGIC + TYPES + IMPORT))
    bench.judge("imports 1" in said, f"an import: {said!r}")
    said = refusal(lambda: elsewhere.hold(b"no module"))
    bench.judge("no WebAssembly" in said, f"no module: {said!r}")
    said = refusal(lambda: elsewhere.hold((bench.page / "tilugba.wasm").read_bytes()))
    bench.judge(not said, f"the module of the page is refused: {said}")


def try_bytes(bench: Bench) -> None:
    """The page's files are those that its sources make now, and twice the same."""
    if not shutil.which("rt"):
        bench.pass_over("the same files twice", "rt")
        return
    module = bench.page / "tilugba.wasm"
    made = json.loads((bench.page / "made.json").read_text(encoding="utf-8"))
    folders = [bench.room / it for it in ("once", "twice")]
    for it in folders:
        it.mkdir()
        page.fill(it, toolchain.at_hand(TOP), TOP, module, made["proved"])
    names = [sorted(str(it.relative_to(top)) for it in top.rglob("*")) for top in folders]
    bench.judge(names[0] == names[1], "two pages have other files")
    for name in names[0]:
        files = [top / name for top in (*folders, bench.page)]
        if not files[0].is_file():
            continue
        first, second, given = (it.read_bytes() if it.is_file() else None for it in files)
        bench.judge(first == second, f"{name} is not twice the same")
        is_of_commit = name == "made.json"
        bench.judge(
            is_of_commit or first == given, f"{name} of {bench.page} is not of these sources"
        )


def try_notices(bench: Bench) -> None:
    """The page has the notices of all that it is made of."""
    text = (bench.page / "NOTICES.txt").read_text(encoding="utf-8")
    for name in ("The Tilugba maintainers", "clap", "jiff", *page.PACKAGES, "Marijn Haverbeke"):
        bench.judge(name in text, f"NOTICES.txt does not name {name}")


def try_sentences(bench: Bench) -> None:
    """The sentences of faults are plain texts, for a page has no use for links between pages."""
    for kind, said in page.faults(TOP).items():
        of_kind = [text for texts in said.values() for text in texts]
        bench.judge(bool(of_kind), f"there is no sentence of {kind}")
        for text in of_kind:
            bench.judge("](" not in text and bool(text), f"a sentence of {kind}: {text}")


def try_recipes(bench: Bench) -> None:
    """Nearly all runs that the pages show are recipes."""
    for name in recipes.PAGES:
        text = (TOP / f"docs/{name}.md").read_text(encoding="utf-8")
        shown = sum(line.startswith("$ ./tilugba ") for line in text.splitlines())
        found = len(recipes.page(TOP, name).runs)
        bench.judge(found > 20 and found >= shown * 0.9, f"{name}: {found} of {shown} runs")


def try_made(bench: Bench) -> None:
    try_retarget(bench)
    try_hold(bench)
    try_recipes(bench)
    try_sentences(bench)
    try_notices(bench)
    try_bytes(bench)
