"""Calls of kbd48 over files of a folder of their own, and what they print."""
from __future__ import annotations

import os
import re
import subprocess
import sys
from dataclasses import dataclass
from typing import Any, Optional

HEXADECIMAL = {"pc", "a", "psw", "t", "pre", "p1", "p2", "bus"}
CELLS = 128
# The state of the processor, by the names of the state text.
State = dict[str, Any]


class Unanswered(Exception):
    """There are no vectors, for this reason."""


def program_here(top: str) -> str:
    """The program that the launcher in this folder calls: the proved one, or else the unproved build, which is made first
    if there is none. KBD48 names another."""
    if "KBD48" in os.environ:
        return os.environ["KBD48"]
    if not os.path.isfile(os.path.join(top, "crates.txt")):
        return os.path.join(top, "bin", "kbd48")
    out = os.path.join(top, "crates", "kbd48", "out")
    asked = ["sh", "-c", 'here=$1 && . "$1/launcher/kept.sh" && stands "$2"', "sh", top, out]
    if subprocess.run(asked, check=False).returncode == 0:
        return os.path.join(out, "kbd48")
    if subprocess.run([os.path.join(top, "launcher", "try"), "--build"], check=False).returncode != 0:
        raise Unanswered("there is no program to ask")
    print("vectors: NOT PROVED: the vectors come from a build of which nothing is proved", file=sys.stderr)
    return os.path.join(out, "unproved", "kbd48")


def hex_text(image: dict[int, int]) -> str:
    """An image, its bytes by their places, as HEX."""
    lines = []
    for row in range(0, 2048, 16):
        if any(place in image for place in range(row, row + 16)):
            data = [16, row >> 8, row & 255, 0] + [image.get(place, 0) for place in range(row, row + 16)]
            lines.append(":" + bytes(data + [-sum(data) & 255]).hex().upper())
    return "\n".join(lines + [":00000001FF", ""])


def state_of(lines: list[str]) -> State:
    """The state that the five lines of the state text show."""
    state: State = {}
    for line in lines:
        words = line.split()
        if words[0] == "r":
            state["r"] = [int(word, 16) for word in words[1:]]
            continue
        for name, value in zip(words[::2], words[1::2]):
            if name == "run":
                state[name] = value
            elif name in ("ext", "tim"):
                state[name] = int(value == "on")
            else:
                state[name] = int(value, 16 if name in HEXADECIMAL else 10)
    return state


@dataclass(frozen=True)
class Seen:
    """A step as `probe` shows it: the state before the step before, and state and memory before and after the step."""

    earlier: State
    before: State
    cells_before: list[int]
    behind: State
    cells_behind: list[int]


class Kbd48:
    """The program, with a folder for the files that it reads."""

    def __init__(self, program: str, folder: str, layout: str):
        self.program, self.folder, self.layout = program, folder, layout

    def written(self, name: str, text: str) -> str:
        """A file of the folder with this text."""
        path = os.path.join(self.folder, name)
        with open(path, "w", encoding="ascii") as file:
            file.write(text)
        return path

    def call(self, *words: str) -> Optional[str]:
        """What the program prints, or None if it refuses."""
        try:
            done = subprocess.run([self.program, *words], capture_output=True, check=False, encoding="ascii")
        except OSError as error:
            raise Unanswered(f"{self.program}: {error.strerror}") from error
        return done.stdout if done.returncode == 0 else None

    def seen(self, image: dict[int, int], keys: str, steps: int) -> Optional[Seen]:
        """The step after so many steps of an image on the board under a key file, or None if the run ends before."""
        memory = ["ram %02X" % cell for cell in range(CELLS)]
        script = ["step %d" % (steps - 1), "show", "step 1", "show", *memory, "step 1", "show", *memory]
        text = self.call("probe", self.written("image.hex", hex_text(image)), self.layout, self.written("keys", keys),
                         self.written("script", "\n".join(script) + "\n"))
        if text is None or re.search(r"^at \d+ end$", text, re.MULTILINE):
            return None
        lines = text.splitlines()
        # A line for each of the script's, and five for `show`.
        second, third = 1 + 5, 1 + 5 + 1 + 5 + CELLS
        return Seen(state_of(lines[1:6]), state_of(lines[second + 1:second + 6]), cells_of(lines[second + 6:third]),
                    state_of(lines[third + 1:third + 6]), cells_of(lines[third + 6:]))


def cells_of(lines: list[str]) -> list[int]:
    """What lines of `ram` say."""
    return [int(line.split()[2], 16) for line in lines]


class Texts:
    """The texts of the instructions, from one listing of them all."""

    def __init__(self, kbd48: Kbd48):
        image = {2 * first: first for first in range(256)}
        image[511] = 0xFF
        listed = kbd48.call("list", kbd48.written("image.hex", hex_text(image)))
        if listed is None:
            raise Unanswered(f"{kbd48.program} gives no listing")
        self.texts: list[str] = []
        lines = iter(listed.splitlines())
        for _ in range(256):
            self.texts.append(next(lines))
            if not self.is_long(len(self.texts) - 1):
                next(lines)

    def exists(self, first: int) -> bool:
        """Whether a byte begins an instruction."""
        return not self.texts[first].startswith("DB ")

    def is_long(self, first: int) -> bool:
        """Whether an instruction with this first byte has a second."""
        return self.exists(first) and bool(re.search(r"0[0-9A-F]{2,3}H$", self.texts[first]))

    def is_jump(self, first: int) -> bool:
        """Whether its second byte is the low byte of an address."""
        return bool(re.search(r"0[0-9A-F]{3}H$", self.texts[first]))

    def text(self, place: int, code: list[int]) -> str:
        """The text of an instruction at a place."""
        text = self.texts[code[0]]
        if not self.is_long(code[0]):
            return text
        if not self.is_jump(code[0]):
            return re.sub(r"0[0-9A-F]{2}H$", "0%02XH" % code[1], text)
        anywhere = text.startswith(("JMP ", "CALL "))
        page = code[0] >> 5 << 8 if anywhere else (place + 1) & 0x700
        return re.sub(r"0[0-9A-F]{3}H$", "0%03XH" % (page | code[1]), text)
