"""Compiles the LLVM module of a proved static library, which is for x86-64, to WebAssembly with a 64-bit memory.

Rattle's text is memory of bytes, offsets of bytes and pointers of 64 bits for both, so the data layout, the triple and
four attributes are all that differs. No proof covers this step, as none covers what LLVM makes of the module for
x86-64."""

from __future__ import annotations

import tempfile
from pathlib import Path

from bitcode import retargeted, run, text_of

HERE = Path(__file__).resolve().parent
PARTS = ("heap.c", "wide.c")
STACK = 1 << 20  # first in memory, so that an overflow ends below 0, which traps
TARGET = "--target=wasm64-unknown-unknown"
# The flags with which Rattle compiles for wasm64 itself.
FLAGS = [TARGET, "-mcpu=lime1", "-O3", "-ffunction-sections", "-fdata-sections", "-Wno-override-module"]
OF_LLVM = "expand-div-rem-bits=64 expand-fp-convert-bits=64 disable-machine-licm disable-postra-machine-licm"
for _flag in f"{OF_LLVM} sink-common-insts=false".split():
    FLAGS += ["-mllvm", f"-{_flag}"]


def retarget(toolchain: Path, module: Path, out: Path, exports: list[str]) -> None:
    """Writes the WebAssembly of a module, with these exports."""
    clang, linker = toolchain / "bin/clang", toolchain / "bin/ld.lld"
    asked = run(clang, TARGET, "-xc", "-", "-S", "-emit-llvm", "-o", "-", text="int nothing;")
    with tempfile.TemporaryDirectory() as folder:
        work = Path(folder)
        (work / "wasm.ll").write_text(retargeted(text_of(clang, module, work), asked))
        run(clang, *FLAGS, "-c", "-x", "ir", work / "wasm.ll", "-o", work / "library.o")
        objects = [work / "library.o"]
        for part in PARTS:
            objects.append(work / f"{part}.o")
            warnings = ["-Wall", "-Wextra", "-Werror"]
            run(clang, *FLAGS, "-fwrapv", "-ffreestanding", *warnings, "-c", HERE / part, "-o", objects[-1])
        layout = ["--no-entry", "--stack-first", "-z", f"stack-size={STACK}", "--gc-sections", "--strip-all"]
        exported = [f"--export={name}" for name in exports]
        run(linker, "-flavor", "wasm", "-mwasm64", *layout, "--fatal-warnings", *exported, "-o", out, *objects)
