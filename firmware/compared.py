"""What `kbd48` prints of a key file, as a simulated board should print it, and key files that are made for the comparison."""
import os
import re
import subprocess
from dataclasses import dataclass
from pathlib import Path
from typing import List, Tuple

from boards import HERE, Refused
from key_files import lines_of

TOP = HERE.parent
# INT 09h's own items: the simulated PC only reads the byte.
LINK = re.compile(r"(port|lights|read|status|output|pulse) ")
TICK, STAMP_0 = 2048, 4096


@dataclass(frozen=True)
class KeyFile:
    """A key file with its layout, and the image that `compile` makes of it."""
    name: str
    layout: Path
    image: Path
    keys: str


@dataclass(frozen=True)
class Printed:
    """The items with their stamps; the changes of the wires with the number of cycles that are done."""
    items: List[Tuple[int, str]]
    wires: List[Tuple[int, str]]


def kbd48(*words: object) -> str:
    """What the program prints; it must end well."""
    program = os.environ.get("KBD48") or str(TOP / "kbd48")
    done = subprocess.run([program, *map(str, words)], stdout=subprocess.PIPE, stderr=subprocess.PIPE, check=False)
    if done.returncode:
        raise Refused("kbd48 %s ended with status %d: %s" % (words[0], done.returncode, done.stderr.decode().strip()))
    return done.stdout.decode()


def _items(text: str) -> List[Tuple[int, str]]:
    lines = [line.split(" ", 1) for line in text.splitlines()]
    return [(int(number), item) for number, item in lines if LINK.match(item)]


def _changes(lines: List[str]) -> List[Tuple[int, str]]:
    """The changes of a value change dump, with their times in cycles; comments and the first values are left out."""
    at, found = 0, []
    for line in lines:
        if line.startswith("#"):
            at = int(line[1:]) // 25
        elif re.fullmatch("[01][cd]", line) and at:
            found.append((at, line))
    return found


def expected(file: KeyFile, folder: Path) -> Printed:
    """What the program prints of a key file. `board` and `run` have the same items, with stamps and with ticks."""
    path = folder / "keys"
    path.write_text(file.keys, encoding="ascii")
    items = _items(kbd48("board", file.image, file.layout, path))
    in_ticks = _items(kbd48("run", file.layout, path))
    if not is_in_ticks(items, in_ticks):
        raise Refused("%s: `run` and `board` differ" % file.name)
    end = next(stamp for stamp, words in lines_of(file.keys) if words == ["end"])
    wires = [change for change in _changes(kbd48("trace", file.layout, path).splitlines()) if change[0] < end + STAMP_0]
    return Printed(items, wires)


def is_in_ticks(items: List[Tuple[int, str]], in_ticks: List[Tuple[int, str]]) -> bool:
    """Whether items with stamps are those with ticks; a tick starts up to a cycle late."""
    return len(items) <= len(in_ticks) and all(
        item == other and tick in (max(0, stamp // TICK), max(0, (stamp - 1) // TICK))
        for (stamp, item), (tick, other) in zip(items, in_ticks))


def printed(lines: List[str]) -> Printed:
    """What a simulation has printed."""
    return Printed(_items("\n".join(line for line in lines if re.match(r"-?\d+ ", line))), _changes(lines))


def ending(lines: List[str]) -> Tuple[int, float]:
    """How often a simulation gave up time, and how late a step was at most, in cycles."""
    found = re.fullmatch(r"slips (\d+) late (\d+)", lines[-1] if lines else "")
    if not found:
        raise Refused("the simulation ended with: %s" % (lines[-1] if lines else "nothing"))
    return int(found[1]), int(found[2]) / 16


# --- key files ---

def within_each_bit(offset: int, step: int) -> str:
    """A key that goes down and up in turn; in the tick in which its byte is sent, the host writes at each offset of the frame, in
    steps: a byte for the keyboard, or a command of the controller's. Both break the frame off, if it may be broken."""
    lines, at = [], 100 * TICK
    for number, place in enumerate(range(240 + offset, 640, step)):
        lines.append("%d %s a" % (at - 1, "release" if number % 2 else "press"))
        lines.append("%d %s" % (at + TICK + place, "write64 20" if number % 3 == 2 else "write60 EE"))
        at += 12 * TICK
    return "\n".join(lines + ["%d end" % at]) + "\n"
