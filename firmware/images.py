"""The image of a layout, and its place in a finished file (image.h)."""
import os
import struct
import subprocess
import sys
from dataclasses import dataclass
from pathlib import Path
from typing import Tuple

import ihex
from boards import HERE, Refused, Table
from layouts import judge_columns, text_of

MARK, FORM = b"kbd48img", 1
HEAD = struct.Struct("<8sII16s96s")
SIZE = 2048


@dataclass(frozen=True)
class Image:
    """A program of 2,048 bytes, whether it is a layout's, and where it is from."""
    program: bytes
    is_kernel: bool
    source: str


def _program(text: str) -> bytes:
    begin, data = ihex.read(text)
    if begin + len(data) > SIZE:
        raise Refused("the 8049 has places 000 to 7FF, and this goes to %X" % (begin + len(data) - 1))
    return bytes(begin) + data + bytes(SIZE - begin - len(data))


def of_layout(path: Path, table: Table) -> Image:
    """The image that `kbd48 compile` makes of a layout; a HEX file is an image already."""
    text = text_of(path)
    if text.lstrip()[:1] == ":":
        try:
            return Image(_program(text), False, path.name)
        except Refused as fault:
            raise Refused("%s: %s" % (path, fault)) from fault
    judge_columns(path, table)
    program = os.environ.get("KBD48") or str(HERE.parent / "kbd48")
    done = subprocess.run([program, "compile", str(path)], stdout=subprocess.PIPE, stderr=subprocess.PIPE, check=False)
    said = done.stderr.decode(errors="replace")
    if done.returncode:
        raise Refused("%s\n%s isn't compiled: kbd48 ended with status %d" % (said.strip(), path, done.returncode))
    sys.stderr.write(said)
    return Image(_program(done.stdout.decode()), True, path.name)


def _head_in(memory: bytes) -> Tuple[int, int, bool, str, str]:
    """Where the place of the image is; its form, whether it has a layout's image, the board, and where the image is from."""
    at = memory.find(MARK)
    if at < 0 or memory.find(MARK, at + 1) >= 0 or at + HEAD.size + SIZE > len(memory):
        raise Refused("it isn't this project's: it has no place for an image, or more than one")
    _, form, is_kernel, board, source = HEAD.unpack_from(memory, at)
    if form != FORM:
        raise Refused("its place for the image, at %X, has form %d; this script knows form %d" % (at, form, FORM))
    names = [name.rstrip(b"\0").decode("utf-8", "replace") for name in (board, source)]
    return at, form, bool(is_kernel), names[0], names[1]


def board_in(memory: bytes) -> str:
    """The name of the board that a memory is for."""
    return _head_in(memory)[3]


def place_in(memory: bytes, table: Table) -> int:
    """Where the image is in a memory of this board."""
    at, _, _, board, _ = _head_in(memory)
    if board != table.name:
        raise Refused("it is for the board %s, not %s" % (board, table.name))
    return at


def put_in(memory: bytes, image: Image, table: Table) -> bytes:
    """The memory with this image."""
    at = place_in(memory, table)
    source = image.source.encode("utf-8", "replace")[:95].decode("utf-8", "ignore").encode("utf-8")
    block = HEAD.pack(MARK, FORM, image.is_kernel, table.name.encode("ascii"), source) + image.program
    return memory[:at] + block + memory[at + len(block):]


def image_in(memory: bytes) -> Image:
    """The image that a memory has."""
    at, _, is_kernel, _, source = _head_in(memory)
    return Image(memory[at + HEAD.size:at + HEAD.size + SIZE], is_kernel, source)
