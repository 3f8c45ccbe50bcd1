"""UF2 files for the RP2040, and its boot block's CRC. A fault is reported with the number of its block."""
import struct
from typing import List

from boards import Refused

MAGIC, SECOND_MAGIC, LAST_MAGIC = 0x0A324655, 0x9E5D5157, 0x0AB16F30
HAS_FAMILY, RP2040 = 0x2000, 0xE48BFF56
PAYLOAD, BLOCK, SECTOR = 256, 512, 4096
HEAD = struct.Struct("<8I")
FLASH, FLASH_SIZE = 0x10000000, 0x200000
RAM, RAM_END = 0x20000000, 0x20042000
BOOT = 252


def crc32(data: bytes) -> int:
    """The CRC of the RP2040's ROM: polynomial 04C11DB7, the highest bit first, begun with ones, not inverted."""
    crc = 0xFFFFFFFF
    for byte in data:
        crc ^= byte << 24
        for _ in range(8):
            crc = (crc << 1 ^ (0x04C11DB7 if crc >> 31 else 0)) & 0xFFFFFFFF
    return crc


def with_boot_crc(flash: bytes) -> bytes:
    """The flash memory with the right CRC in its boot block."""
    return flash[:BOOT] + struct.pack("<I", crc32(flash[:BOOT])) + flash[BOOT + 4:]


def packed(flash: bytes) -> bytes:
    """A UF2 of the flash memory from its beginning. Whole sectors are given, because the ROM erases a sector with its first
    page alone."""
    flash += bytes(-len(flash) % SECTOR)
    pages = [flash[at:at + PAYLOAD] for at in range(0, len(flash), PAYLOAD)]
    return b"".join(
        HEAD.pack(MAGIC, SECOND_MAGIC, HAS_FAMILY, FLASH + number * PAYLOAD, PAYLOAD, number, len(pages), RP2040)
        + page.ljust(BLOCK - HEAD.size - 4, b"\0") + struct.pack("<I", LAST_MAGIC) for number, page in enumerate(pages))


def _judge(number: int, count: int, head: List[int], last: int) -> None:
    """A block's head and end."""
    magic, second, flags, at, size, said, total, family = head
    faults = (
        ((magic, second, last) != (MAGIC, SECOND_MAGIC, LAST_MAGIC), "no UF2: its magic numbers are others"),
        (not flags & HAS_FAMILY or family != RP2040, "family %08X isn't the RP2040's, %08X" % (family, RP2040)),
        (flags & ~HAS_FAMILY, "flags %08X" % flags),
        (size != PAYLOAD, "%d bytes, and the RP2040 takes %d" % (size, PAYLOAD)),
        ((said, total) != (number, count), "it says that it is block %d of %d" % (said, total)),
        (at != FLASH + number * PAYLOAD, "address %08X, not %08X" % (at, FLASH + number * PAYLOAD)))
    for wrong, why in faults:
        if wrong:
            raise Refused("block %d: %s" % (number, why))


def unpacked(data: bytes) -> bytes:
    """The flash memory of a UF2, which must be as `packed` makes it: nothing missing, nothing twice, whole sectors."""
    if not data or len(data) % BLOCK:
        raise Refused("no UF2: %d bytes aren't blocks of %d" % (len(data), BLOCK))
    count, flash = len(data) // BLOCK, b""
    for number in range(count):
        block = data[number * BLOCK:(number + 1) * BLOCK]
        _judge(number, count, list(HEAD.unpack_from(block)), struct.unpack_from("<I", block, BLOCK - 4)[0])
        flash += block[HEAD.size:HEAD.size + PAYLOAD]
    if len(flash) % SECTOR or len(flash) > FLASH_SIZE:
        raise Refused("block %d: the file doesn't end with a sector of %d bytes" % (count - 1, SECTOR))
    return flash


def judge_flash(flash: bytes) -> None:
    """What the RP2040's ROM and boot block need: the CRC, and vectors that lead into the memories."""
    crc, = struct.unpack_from("<I", flash, BOOT)
    if crc != crc32(flash[:BOOT]):
        raise Refused("block 0: the boot block's CRC is %08X, not %08X" % (crc, crc32(flash[:BOOT])))
    stack, reset = struct.unpack_from("<2I", flash, PAYLOAD)
    if not RAM < stack <= RAM_END or stack % 8 or not reset & 1 or not FLASH < reset < FLASH + len(flash):
        raise Refused("block 1: stack %08X and reset %08X aren't in the memories" % (stack, reset))
