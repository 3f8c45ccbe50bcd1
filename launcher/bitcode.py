"""The LLVM module of a static library, as `rattle` hands it to clang after the proof: for processors that rattle doesn't
compile for. lab/build and c/cross use it.

No proof covers what is made of it."""
from __future__ import annotations

import copy
import importlib.machinery
import importlib.util
import re
import subprocess
import sys
import tempfile
from pathlib import Path

HERE = Path(__file__).resolve().parent
OF_X86 = re.compile(r' "(probe-stack|stack-probe-size|target-cpu|target-features)"="[^"]*"')
FOREIGN = re.compile(r"llvm\.x86[\w.]*|\bmodule asm\b.*|\basm (?:sideeffect|alignstack|inteldialect|\")")


class Stopped(Exception):
    """There is no module, or it isn't one that may be compiled for another processor."""


def launcher_library():
    """launcher/library as a module: what a crate is proved over, and by which command."""
    loader = importlib.machinery.SourceFileLoader("library", str(HERE / "library"))
    made = importlib.util.module_from_spec(importlib.util.spec_from_loader("library", loader))
    sys.modules["library"] = made
    loader.exec_module(made)
    return made


def run(*words: str | Path, text: str | None = None) -> str:
    """What a tool prints; it must end well."""
    return subprocess.run([str(word) for word in words], input=text, stdout=subprocess.PIPE, text=True, check=True).stdout


def stand_in(toolchain: Path, folder: Path, kept: Path) -> Path:
    """A toolchain like the true one, but for a `clang` that keeps the LLVM module which it is handed."""
    (folder / "bin").mkdir(parents=True)
    (folder / "lib").symlink_to(toolchain / "lib")
    for tool in (toolchain / "bin").iterdir():
        if tool.name != "clang":
            (folder / "bin" / tool.name).symlink_to(tool)
    text = (HERE / "keeping_clang").read_text(encoding="utf-8")
    clang = folder / "bin/clang"
    clang.write_text(text.replace("@KEPT@", str(kept)).replace("@TOOLCHAIN@", str(toolchain)))
    clang.chmod(0o755)
    return folder


def llvm_module(library, kit, crate, who: str) -> Path:
    """The library as `rattle` hands it to LLVM, kept while nothing of it changes. What is below it is proved."""
    kept = crate.folder / "out" / f"{crate.name}.bc"
    stamp = kept.with_suffix(".bc.sum")
    if kept.exists() and stamp.is_file() and stamp.read_text(encoding="ascii") == crate.key:
        return kept
    stamp.unlink(missing_ok=True)
    print(f"{who}: proving {crate.name}", file=sys.stderr, flush=True)
    with tempfile.TemporaryDirectory(prefix="kbd48-llvm-") as work:
        kit = copy.copy(kit)
        kit.toolchain = stand_in(kit.toolchain, Path(work) / "toolchain", kept)
        library.Build(kit, [crate]).make(crate, 2)
    if not kept.exists():
        raise Stopped(f"rattle handed no LLVM module of {crate.name} to clang")
    stamp.write_text(crate.key, encoding="ascii")
    return kept


def text_of(clang: Path, module: Path, work: Path) -> str:
    """The module as text."""
    made = work / "x86.ll"
    words = ["-S", "-emit-llvm", "-Xclang", "-disable-llvm-passes"]
    run(clang, "-Wno-override-module", "-x", "ir", module, *words, "-o", made)
    return made.read_text(encoding="utf-8")


def retargeted(text: str, asked: str) -> str:
    """The module's text for another processor; `asked` is any module of that target. Rattle's text is memory of bytes,
    offsets of bytes and pointers of 64 bits, so the data layout, the triple and four attributes are all that differs."""
    for what in ("datalayout", "triple"):
        form = re.compile(rf"^target {what} = .*$", re.MULTILINE)
        wanted = form.search(asked)
        text, count = form.subn(lambda _: wanted[0], text)
        if count != 1:
            raise Stopped(f"the module has {count} lines `target {what}`")
    text = OF_X86.sub("", text)
    if found := FOREIGN.search(text):
        raise Stopped(f"the module is for x86-64: {found[0]}")
    return text
