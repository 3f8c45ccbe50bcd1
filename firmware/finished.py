"""Finished files of a board: UF2 for the RP2040, and HEX. They are judged whenever they are read."""
from pathlib import Path
from typing import List, Tuple

import ihex
import images
import uf2
from boards import HERE, Refused, Table, read_board

PREBUILT = HERE / "prebuilt"
ENDS = (".uf2", ".hex")


def _memory(data: bytes) -> Tuple[int, bytes]:
    """Where the memory of a file begins, and its bytes."""
    return ihex.read(data.decode("ascii", "replace")) if data[:1] == b":" else (uf2.FLASH, uf2.unpacked(data))


def _judge(begin: int, memory: bytes, table: Table) -> None:
    if begin != table.range_of("flash")[0]:
        raise Refused("it begins at %X, not with the flash memory of %s" % (begin, table.name))
    if table.facts["chip"] == "rp2040":
        uf2.judge_flash(memory)
    images.place_in(memory, table)


def read(path: Path, table: Table = None) -> Tuple[Table, bytes]:
    """The board of a file, and its flash memory. The board may be given, if its table isn't one of boards/."""
    try:
        begin, memory = _memory(path.read_bytes())
        table = table or read_board(images.board_in(memory))
        _judge(begin, memory, table)
    except OSError as fault:
        raise Refused("%s can't be read: %s" % (path, fault.strerror)) from fault
    except Refused as fault:
        raise Refused("%s: %s" % (path, fault)) from fault
    return table, memory


def of_board(name: str) -> Path:
    """The finished file of a board that the repository has."""
    for end in ENDS:
        if (PREBUILT / (name + end)).is_file():
            return PREBUILT / (name + end)
    raise Refused("there is no finished file of %s in %s; --compile makes one of the sources" % (name, PREBUILT))


def write(memory: bytes, table: Table, stem: Path) -> List[Path]:
    """The files of a flash memory. Each is read back."""
    texts = {".hex": ihex.written(table.range_of("flash")[0], memory).encode("ascii")}
    if table.facts["chip"] == "rp2040":
        texts[".uf2"] = uf2.packed(memory)
    for end, text in texts.items():
        path = stem.with_suffix(end)
        path.write_bytes(text)
        if read(path, table)[1][:len(memory)] != memory:
            raise Refused("%s isn't read back as it was written" % path)
    return [stem.with_suffix(end) for end in texts]
