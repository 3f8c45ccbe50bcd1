"""Intel HEX: bytes from one place on."""
from typing import Dict, Tuple

from boards import Refused


def written(begin: int, data: bytes) -> str:
    """The text: lines of 16 bytes, the upper half of the address wherever it changes."""
    def line(place: int, kind: int, body: bytes) -> str:
        raw = bytes([len(body), place >> 8 & 255, place & 255, kind]) + body
        return ":%s%02X\n" % (raw.hex().upper(), -sum(raw) & 255)
    text, upper = "", -1
    for at in range(begin, begin + len(data), 16):
        if at >> 16 != upper:
            upper = at >> 16
            text += line(0, 4, upper.to_bytes(2, "big"))
        text += line(at & 0xFFFF, 0, data[at - begin:at - begin + 16])
    return text + line(0, 1, b"")


def _record(line: str) -> Tuple[int, int, bytes]:
    raw = bytes.fromhex(line[1:])
    if line[:1] != ":" or len(raw) < 5 or len(raw) != raw[0] + 5 or sum(raw) & 255:
        raise ValueError
    return raw[3], raw[1] << 8 | raw[2], raw[4:-1]


def read(text: str) -> Tuple[int, bytes]:
    """Where it begins, and the bytes from there on; a gap is 00."""
    memory: Dict[int, int] = {}
    upper, ended = 0, False
    for number, line in enumerate(text.split(), 1):
        try:
            kind, place, body = _record(line)
        except ValueError as fault:
            raise Refused("line %d: no record of a HEX file" % number) from fault
        if ended or kind not in (0, 1, 4, 5):
            raise Refused("line %d: a record of kind %d has no place here" % (number, kind))
        if kind == 4:
            upper = int.from_bytes(body, "big") << 16
        if kind == 0:
            memory.update({upper + place + offset: byte for offset, byte in enumerate(body)})
        ended = kind == 1
    if not ended or not memory:
        raise Refused("it has no %s" % ("byte" if ended else "end"))
    begin, end = min(memory), max(memory) + 1
    if end - begin > 1 << 22:
        raise Refused("it goes from %X to %X" % (begin, end))
    return begin, bytes(memory.get(at, 0) for at in range(begin, end))
