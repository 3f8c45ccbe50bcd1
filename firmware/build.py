"""Compiles the program of a board with arm-none-eabi-gcc, over the archive of the proved processor."""
import shutil
import subprocess
from pathlib import Path
from typing import Sequence

from boards import HERE, Refused, Table, pins_h

TOP = HERE.parent
HEADER = TOP / "c" / "kbd48_chip.h"
COMPILER = "arm-none-eabi-gcc"
FLAGS = ("-std=gnu11", "-mthumb", "-O2", "-g", "-Wall", "-Wextra", "-Werror", "-ffreestanding", "-fno-tree-loop-distribute-patterns",
         "-ffunction-sections", "-fdata-sections")


def archive_of(table: Table) -> Path:
    """The archive that c/cross leaves."""
    return TOP / "dist" / "chip" / table.facts["archive"] / "libkbd48_chip.a"


def run(words: Sequence[object]) -> None:
    """A tool must end well."""
    done = subprocess.run([str(word) for word in words], stdout=subprocess.PIPE, stderr=subprocess.STDOUT, check=False)
    if done.returncode:
        raise Refused("%s failed:\n%s" % (words[0], done.stdout.decode(errors="replace").strip()))


def linker_script(table: Table) -> str:
    """chip.ld for a board."""
    in_ram = table.facts["code"] == "ram"
    first = ".text" if in_ram else ".data"
    text = (HERE / "chip.ld").read_text(encoding="ascii")
    for mark, value in (("@CODE@", "ram" if in_ram else "flash"), ("@COPIED_FROM@", "LOADADDR(%s)" % first),
                        ("@COPIED@", "ADDR(%s)" % first)):
        text = text.replace(mark, value)
    return text


def compiled(table: Table, folder: Path, sources: Sequence[Path], defines: Sequence[str] = (), archive: Path = None,
             header: Path = HEADER) -> Path:
    """The ELF file of some sources, in a folder."""
    if not shutil.which(COMPILER):
        raise Refused("there is no %s: the package gcc-arm-none-eabi has it" % COMPILER)
    archive = archive or archive_of(table)
    if not archive.is_file():
        raise Refused("there is no %s: c/cross %s makes it" % (archive, table.facts["archive"]))
    (folder / "pins.h").write_text(pins_h(table), encoding="ascii")
    (folder / "chip.ld").write_text(linker_script(table), encoding="ascii")
    memories = [("FLASH", table.range_of("flash")), ("RAM", table.range_of("ram"))]
    symbols = ["-Wl,--defsym=%s=%#x,--defsym=%s_SIZE=%#x" % (name, begin, name, size) for name, (begin, size) in memories]
    elf = folder / "kbd48.elf"
    run([COMPILER, *FLAGS, "-mcpu=" + table.facts["cpu"], '-DHAL="%s"' % table.facts["hal"], *defines, "-I", folder, "-I", HERE,
         "-I", header.parent, *sources, archive, "-nostdlib", "-T", folder / "chip.ld", "-Wl,--gc-sections", "-Wl,--no-warn-rwx-segments", "-Wl,-z,noexecstack",
         *symbols, "-Wl,-Map=%s" % (folder / "kbd48.map"), "-lgcc", "-o", elf])
    return elf


def sources_of(table: Table) -> Sequence[Path]:
    """The sources of a board's program."""
    boot = [HERE / "boot2.S"] if table.facts["chip"] == "rp2040" else []
    return [HERE / "main.c", HERE / "image.c", HERE / "start.c", HERE / "memory.c", (HERE / table.facts["hal"]).with_suffix(".c"), *boot]


def flash_of(elf: Path) -> bytes:
    """The flash memory of an ELF file, from its beginning."""
    binary = elf.with_suffix(".bin")
    run(["arm-none-eabi-objcopy", "-O", "binary", elf, binary])
    return binary.read_bytes()


def with_memory(elf: Path, memory: bytes, to: Path) -> Path:
    """The ELF file with what is put into the flash memory after it is compiled: the boot block with its CRC, and the image."""
    listed = subprocess.run(["arm-none-eabi-objdump", "-h", str(elf)], stdout=subprocess.PIPE, check=True).stdout.decode()
    sections = {words[1]: (int(words[4], 16), int(words[2], 16)) for words in map(str.split, listed.splitlines())
                if len(words) == 7 and words[1] in (".boot2", ".vectors", ".image")}
    begin, changed = min(at for at, _ in sections.values()), []
    for name, (at, size) in sections.items():
        part = elf.with_suffix(name)
        part.write_bytes(memory[at - begin:at - begin + size])
        changed += ["--update-section", "%s=%s" % (name, part)]
    run(["arm-none-eabi-objcopy", *changed, elf, to])
    return to
