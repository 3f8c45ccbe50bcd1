"""Certificates of cycle bounds: what a faulty line probably should be."""
from __future__ import annotations

import re
import sys
from functools import lru_cache
from importlib.machinery import SourceFileLoader
from importlib.util import module_from_spec, spec_from_loader
from pathlib import Path

EXAMPLES = Path(__file__).resolve().parent.parent.parent / "examples"
LINE = re.compile(r"([0-7][0-9A-Fa-f]{2}) (\d+)(?: (\d+) ([0-7]))?")


@lru_cache(maxsize=1)
def certify():
    """The script that makes certificates: it knows the ways of each instruction, and how a bound falls."""
    sys.path.insert(0, str(EXAMPLES))
    loader = SourceFileLoader("certify", str(EXAMPLES / "certify"))
    module = module_from_spec(spec_from_loader(loader.name, loader))
    sys.modules["certify"] = module
    loader.exec_module(module)
    return module


def hints(fault):
    text = fault.text
    if fault.number == 1 and fault.at == next((at for at, it in enumerate(fault.lines, 1) if it.strip()), 0):
        return ["the first line is target PPP, PPP a place of three hexadecimal digits below 800"]
    if fault.number == 1:
        return ["a place has three hexadecimal digits below 800; N is at most 1,000,000, M at most 10,000 and R from 0 to 7"]
    if fault.number == 2:
        for number, other in enumerate(fault.lines[: fault.at - 1], 1):
            if re.match(r"[0-9A-Fa-f]{3} ", other) and other[:3].upper() == text[:3].upper():
                return [f"line {number} has it: {other}"]
    if fault.number == 3:
        return ["its first line is target PPP, and each later one a place with its bound: PPP N, or PPP N M R"]
    return of_ways(fault) if fault.number in (5, 6) else []


def of_ways(fault):
    """What a fault of a way says, if the ways of the place can be counted here."""
    module = certify()
    try:
        return [*(not_certified if fault.number == 5 else too_small)(Certificate(fault), fault)]
    except (module.Refused, module.Nested):
        return []


class Certificate:
    """A certificate with its image: the bounds by place, and the ways of the program."""

    def __init__(self, fault):
        module = certify()
        self.program = module.Program.__new__(module.Program)
        self.program.image, self.program.lines = module.memory_of(fault.files["hex"].decode("ascii")), {}
        self.target = int(next(it.split()[1] for it in fault.lines if it.strip()), 16)
        self.bounds = {self.target: module.Bound(0)}
        for found in filter(None, map(LINE.fullmatch, fault.lines)):
            turn, register = (int(found[3]), int(found[4])) if found[3] else (0, None)
            self.bounds[int(found[1], 16)] = module.Bound(int(found[2]), turn, register)
        self.place = int(fault.text.split()[0], 16)
        self.ways = self.program.ways(self.place)
        self.first, self.second = self.program.at(self.place)


def not_certified(it, _fault):
    """The places that no line certifies."""
    left = [f"{way:03X}" for way in it.ways if way not in it.bounds]
    yield f"from {it.place:03X} the processor can come to {' and '.join(left)}, which no line certifies: add a line, or make it the target"


def too_small(it, _fault):
    """How large the bound must be, by the bounds of the places that can follow."""
    said, module = it.bounds[it.place], certify()
    cycles = 2 if it.first in module.TWO_CYCLES else 1
    after = ", ".join(f"{it.bounds[way]} from {way:03X}" for way in it.ways)
    if it.first in module.DJNZ:
        back, on = (it.bounds[way] for way in it.ways)
        if not said.register == back.register == it.first & 7 or back.turn != said.turn or on.register is not None:
            yield f"its bounds after it are {after}; each turn of DJNZ takes {cycles} cycles and the register's value falls by one"
            return
        needed = module.Bound(max(back.cycles, on.cycles) + cycles - said.turn, said.turn, said.register)
    else:
        needed = None
        for way in it.ways:
            bound = it.bounds[way].after(it.first, it.second)
            needed = bound if needed is None else needed.joined(bound)
    yield f"the line says {it.place:03X} {said}, and {it.place:03X} {needed} is needed: {cycles} cycle{'s' * (cycles > 1)} here, and then {after}"
