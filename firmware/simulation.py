"""Boards that are simulated in QEMU: which machine, the program for it, and a key file as the simulation reads it (sim/sim.h)."""
import re
import struct
import subprocess
from dataclasses import dataclass, replace
from pathlib import Path
from typing import Dict, List, Sequence, Tuple

import build
import images
from boards import HERE, Refused, Table, read_board
from key_files import lines_of
from layouts import keys_of

TOP = HERE.parent
SOURCES = [HERE / "main.c", HERE / "image.c", HERE / "start.c", HERE / "memory.c", HERE / "sim/sim.c", HERE / "sim/pc.c", HERE / "sim/semihost.c"]
BEHIND = 0x20000  # where the script is, from the flash memory's beginning
WORDS = ("press", "write60", "write64", "read60", "mask", "unmask", "status", "flip", "take")
NO_EVENT, WIRES, PACED = 9, 1, 2


@dataclass(frozen=True)
class Machine:
    """A machine of QEMU's that executes a board's program: its memories, and the rate of its SysTick."""
    board: str
    name: str
    flash: str
    ram: str
    code: str
    systick_mhz: float

    def table(self) -> Table:
        """The board's table with this machine's memories."""
        table = read_board(self.board)
        return replace(table, facts={**table.facts, "flash": self.flash, "ram": self.ram, "code": self.code})

    def words(self) -> List[str]:
        """How QEMU is called."""
        return ["qemu-system-arm", "-M", self.name, "-nographic", "-monitor", "none", "-serial", "none", "-semihosting-config",
                "enable=on,target=native"]


# A Cortex-M0 for the Pico's M0+, which QEMU hasn't; and the same code in memory, as on a Pico, on a machine with more of it.
MACHINES: Dict[str, Machine] = {
    "pico": Machine("pico", "microbit", "0x0 0x40000", "0x20000000 0x4000", "flash", 16),
    "pico in RAM": Machine("pico", "mps2-an385", "0x0 0x400000", "0x20000000 0x400000", "ram", 25),
    "bluepill": Machine("bluepill", "mps2-an385", "0x0 0x400000", "0x20000000 0x5000", "flash", 25),
    "blackpill": Machine("blackpill", "netduinoplus2", "0x08000000 0x100000", "0x20000000 0x10000", "flash", 168),
}


@dataclass(frozen=True)
class Program:
    """A program for a machine: its flash memory with a layout's image, in a file."""
    machine: Machine
    flash: Path
    elf: Path


def program(machine: Machine, folder: Path, layout: Path, defines: Sequence[str] = ()) -> Program:
    """The program of a machine's board with a layout."""
    table = machine.table()
    folder.mkdir(parents=True, exist_ok=True)
    elf = build.compiled(table, folder, SOURCES, ["-DHAL_SIM", "-I", str(HERE / "sim"),
                         "-Wl,--defsym=script=%#x" % (table.range_of("flash")[0] + BEHIND), *defines])
    memory = build.flash_of(elf)
    if len(memory) > BEHIND:
        raise Refused("the program takes %d bytes" % len(memory))
    flash = folder / "flash.bin"
    flash.write_bytes(images.put_in(memory, images.of_layout(layout, table), table))
    return Program(machine, flash, elf)


# --- key files ---

def places(layout: Path) -> Dict[str, int]:
    """The place of each key of a layout, by its name."""
    return {key.name: key.place for key in keys_of(layout)}


def scan_codes() -> bytes:
    """The scan code of each code of a key, from the definitions."""
    table = bytearray(256)
    text = (TOP / "crates/pc_tables/specs/Keys.antt").read_text(encoding="utf-8")
    for code, scan in re.findall(r'row \(codes "[^"]+"\) 0x(\w+) 0x(\w+)', text):
        table[int(code, 16)] = int(scan, 16)
    return bytes(table)


def _event(words: List[str], key_places: Dict[str, int]) -> Tuple[int, int, int]:
    if words[0] in ("press", "release"):
        return 0, key_places[words[1]], int(words[0] == "press")
    return WORDS.index(words[0]), int(words[1], 16) if len(words) > 1 else 0, 0


@dataclass(frozen=True)
class Asked:
    """How a key file is run: what is printed, a cycle on the program's counter, and what holds it up."""
    flags: int = 0
    cycle: int = 1
    stall_in: int = 0
    stall_most: int = 0
    seed: int = 0


def script(layout: Path, keys: str, asked: Asked) -> bytes:
    """A key file as the simulation reads it."""
    key_places, events, end = places(layout), b"", 0
    for stamp, words in lines_of(keys):
        if words == ["end"]:
            end = stamp
        else:
            events += struct.pack("<I4B", stamp, *_event(words, key_places), 0)
    head = struct.pack("<6I", asked.flags, asked.cycle, end, asked.stall_in, asked.stall_most, asked.seed)
    return head + scan_codes() + events + struct.pack("<I4B", 0xFFFFFFFF, NO_EVENT, 0, 0, 0)


def run(made: Program, layout: Path, keys: str, asked: Asked, more: Sequence[str] = (), seconds: int = 300) -> List[str]:
    """The lines that the simulation prints."""
    file = made.flash.parent / ("script-%x" % (hash((keys, asked)) & 0xFFFFFFFFFF))
    file.write_bytes(script(layout, keys, asked))
    begin = made.machine.table().range_of("flash")[0]
    words = [*made.machine.words(), *more]
    for path, at in ((made.flash, begin), (file, begin + BEHIND)):
        words += ["-device", "loader,file=%s,addr=%#x,force-raw=on" % (path, at)]
    try:
        done = subprocess.run(words, stdout=subprocess.PIPE, stderr=subprocess.STDOUT, stdin=subprocess.DEVNULL, timeout=seconds, check=False)
    except subprocess.TimeoutExpired as late:
        raise Refused("%s doesn't end" % " ".join(words)) from late
    finally:
        file.unlink()
    return done.stdout.decode(errors="replace").splitlines()
