"""HEX files: what a faulty line probably should be."""
from __future__ import annotations

import re


def hints(fault):
    text = fault.text.removeprefix("\ufeff")
    of = {1: shape, 2: the_sum, 3: kind, 4: address, 5: overlap, 6: ending}
    return of.get(fault.number, lambda *_: [])(text, fault)


def shape(text, _fault):
    if not text.startswith(":"):
        return ["a line of a HEX file begins with a colon; a listing or a source is no HEX file: asm makes one of it"]
    if found := re.search("[^0-9A-Fa-f]", text[1:]):
        return [f"{found[0]!r} is no hexadecimal digit"]
    if len(text) < 11:
        return ["a line has at least the length, the address, the type and the sum: eleven characters"]
    if len(text) % 2 == 0:
        return ["a byte has two digits, and one digit is left over"]
    return [f"its first byte says {int(text[1:3], 16)} data bytes, and there are {(len(text) - 11) // 2}"]


def the_sum(text, _fault):
    data = bytes.fromhex(text[1:-2])
    return [f"the line ends with {text[-2:]}, and its other bytes ask for {-sum(data) % 256:02X}"]


def kind(text, _fault):
    return [f"the type is {text[7:9]}; 00 is data and 01 the end, and only programs of 2,048 bytes are read here"]


def address(text, _fault):
    return [f"it begins at {text[3:7]} and has {int(text[1:3], 16)} bytes"]


def places(text):
    if not re.fullmatch(":[0-9A-Fa-f]{10,}", text) or text[7:9] != "00":
        return range(0)
    begin = int(text[3:7], 16)
    return range(begin, begin + int(text[1:3], 16))


def overlap(text, fault):
    mine = {*places(text)}
    for number, other in enumerate(fault.lines[: fault.at - 1], 1):
        if both := mine.intersection(places(other)):
            return [f"line {number} gives {min(both):03X}, too"]
    return []


def ending(_text, _fault):
    return ["the last line is :00000001FF; the file may have been cut off"]
