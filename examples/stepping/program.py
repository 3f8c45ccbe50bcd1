"""Programs that bring the processor into a state: what is wanted of the state, and the bytes that make it."""
from __future__ import annotations

import random
from dataclasses import dataclass, field
from typing import Any, Optional

# Where a program begins; the places below are free for the first jump and the entries of interrupts.
BEGIN = 0x010
# The carries in the status.
C, AC = 0x80, 0x40
# The pressed keys' edges are done by then; a key file's stamp 0 is cycle 4,096.
LATER = 2240
# Instructions of one byte that change nothing of what a program sets afterwards: one of them stands at place 0.
HARMLESS = [0x00, 0x07, 0x17, 0x27, 0x37, 0x47, 0x57, 0x67, 0x77, 0x97, 0xA7, 0xE7, 0xF7, 0xF8, 0xF0, 0x28, 0x42, 0x85, 0xC7]


class Chance:
    """Numbers by chance, the same ones after the same seed in every version of Python."""

    def __init__(self, seed: int):
        self.random = random.Random(seed).random

    def below(self, end: int) -> int:
        """One from 0 on, below the end."""
        return int(self.random() * end)

    def one_of(self, *things: Any) -> Any:
        """One of these."""
        return things[self.below(len(things))]

    def often(self, share: float) -> bool:
        """Whether something is so that is so in this share of cases."""
        return self.random() < share

    def byte(self) -> int:
        """A byte, and 00, 0F, 7F, 80 or FF more often."""
        return self.one_of(self.below(256), self.below(256), self.one_of(0, 15, 127, 128, 255))


@dataclass
class Wanted:
    """What is wanted of a state; the rest is by chance."""

    # An interrupt is in service, and another is requested then.
    service: bool = False
    request: bool = False
    # The timer flag is set.
    flag: bool = False
    # Keys are down, and port 1 selects a column with one.
    keys: bool = False
    # How T runs, and whether it overflows in the step, or an interrupt is due at it.
    run: str = "off"
    near: str = ""
    # The instruction right before the step: none in particular, SEL MB, or ANL or ORL of port 2.
    approach: str = ""
    # The levels of the clock and data wires (T0 and T1), where one is wanted.
    t0: Optional[int] = None
    t1: Optional[int] = None
    # A, and C and AC in the status, if they are wanted.
    accumulator: Optional[int] = None
    carries: Optional[int] = None
    # Whether bit 11 of the counter is set; the place of the step.
    high: bool = False
    place: int = 0x200


@dataclass
class Program:
    """A program: its image, the place of the next byte, the steps so far, and the key file."""

    chance: Chance
    image: dict[int, int] = field(default_factory=dict)
    place: int = BEGIN
    steps: int = 0
    keys: str = "200000 end\n"
    column: Optional[int] = None
    pressed: list[int] = field(default_factory=list)
    accumulator: int = 0

    def put(self, *code: int, times: int = 1) -> None:
        """One more instruction, which is executed so many times."""
        for byte in code:
            self.image[self.place] = byte
            self.place += 1
        self.steps += times

    def jump(self, place: int) -> None:
        """A jump to a place, from which on the program goes on."""
        self.put(0x04 | (place >> 8 & 7) << 5, place & 255)
        self.place = place

    def start(self) -> None:
        """From reset to the program's beginning."""
        self.place = 0
        self.put(self.chance.one_of(*HARMLESS))
        self.jump(BEGIN)

    def wait_for_keys(self, names: list[str]) -> None:
        """Eight keys go down, and the program waits until all are."""
        while len(self.pressed) < 8:
            key = self.chance.below(84)
            if key not in self.pressed:
                self.pressed.append(key)
        lines = ["%d press %s" % (LATER * (number // 4), names[key]) for number, key in enumerate(self.pressed)]
        self.keys = "\n".join([*lines, self.keys])
        self.column = self.pressed[self.chance.below(8)] // 8
        self.put(0xBF, 14)
        turn = self.place
        self.put(0xBE, 0, times=14)
        self.put(0xEE, self.place & 255, times=14 * 256)
        self.put(0xEF, turn & 255, times=14)

    def interrupted(self, again: bool) -> None:
        """The timer overflows and its interrupt is entered; and it overflows again where that is wanted."""
        self.put(0x23, 0xFF), self.put(0x62), self.put(0x25), self.put(0x55)
        # Sixteen jumps of two cycles, and the entry.
        self.put(0x04 | self.place >> 8 << 5, self.place & 255, times=17)
        self.image.update({7: 0x04 | self.place >> 8 << 5, 8: self.place & 255})
        self.steps += 1
        if again:
            self.put(0x23, 0xFF), self.put(0x62)
            for _ in range(32):
                self.put(0x00)
            self.put(0x65)
        else:
            self.put(0x65), self.put(0x35)

    def overflowed(self) -> None:
        """The timer overflows, and its flag is left."""
        self.put(0x23, 0xFF), self.put(0x62), self.put(0x55), self.put(0xBF, 17)
        self.put(0xEF, self.place & 255, times=17)
        self.put(0x65)

    def flag_cleared(self) -> None:
        """JTF to the next instruction clears the timer flag."""
        if self.place & 255 >= 0xFE:
            self.put(0x00), self.put(0x00)
        self.put(0x16, self.place + 2 & 255)

    def memory(self) -> None:
        """Stack, both banks, and the cells at which R0 and R1 point."""
        low = {cell: self.chance.byte() for cell in range(0x20)}
        high = {low[register] & 127: self.chance.byte() for register in (0, 1, 0x18, 0x19)}
        for cell, value in sorted({**high, **low}.items()):
            if not (cell < 8 or 0x18 <= cell < 0x20):
                self.put(0xB8, cell), self.put(0xB0, value)
        self.put(0xD5)
        for register in range(8):
            self.put(0xB8 | register, low[0x18 + register])
        self.put(0xC5)
        for register in range(8):
            self.put(0xB8 | register, low[register])

    def ports(self, wanted: Wanted) -> None:
        """The latches: port 1 with the wanted column, port 2 with the wanted levels of the wires, the bus."""
        first = self.chance.byte()
        if self.column is not None:
            first = first & 0xF0 | self.column
        self.put(0x23, first), self.put(0x39)
        second = self.chance.byte()
        for bit, level in ((1, wanted.t0), (2, wanted.t1)):
            if level is not None:
                second = second & ~bit | bit * level
        if wanted.run == "counter" and wanted.near:
            second |= 2
        self.put(0x23, second), self.put(0x3A)
        self.put(0x23, self.chance.byte()), self.put(0x02)

    def flags(self, wanted: Wanted) -> None:
        """F1, the external interrupt's mark, and the status with the wanted carries."""
        if self.chance.often(0.5):
            self.put(0xB5)
        if self.chance.often(0.3):
            self.put(0x05)
        status = self.chance.byte()
        if wanted.carries is not None:
            status = status & ~(C | AC) | wanted.carries
        self.put(0x23, status), self.put(0xD7)

    def approach(self, how: str) -> list[int]:
        """The instruction right before the step."""
        if how == "mb":
            return [self.chance.one_of(0xE5, 0xF5)]
        if how == "low":
            return [0x9A, 0xFF ^ self.chance.one_of(1, 2, 3)]
        if how == "high":
            return [0x8A, self.chance.one_of(1, 2, 3)]
        return [0x9A, 0xFD] if how == "fall" else []

    def finish(self, wanted: Wanted) -> None:
        """T, its start, and the way to the step: no instruction from here on changes a flag or a cell."""
        near = wanted.near
        self.put(0x23, 0xFF if near or self.chance.often(0.2) else self.chance.byte()), self.put(0x62)
        due_by_fall = near == "due" and wanted.run == "counter"
        code = self.approach("fall" if near == "step" and wanted.run == "counter" else wanted.approach)
        if wanted.request or near == "due" or self.chance.often(0.4):
            self.put(0x25)
        if wanted.high:
            self.put(0xF5)
        elif self.chance.often(0.5):
            self.put(0xE5)
        self.put({"off": 0x65, "timer": 0x55, "counter": 0x45}[wanted.run])
        # The cycles of what follows the waiting: MOV A, perhaps the fall, the jump and the approach.
        last = len(code) if code else 2
        rest = 4 + 2 * due_by_fall + len(code)
        waits = self.chance.below(24 - 2 * due_by_fall)
        if wanted.run == "timer" and near:
            waits = (self.chance.one_of(30, 31) if near == "step" else 32 + self.chance.below(last)) - rest
        for _ in range(waits):
            self.put(0x00)
        self.accumulator = self.chance.byte() if wanted.accumulator is None else wanted.accumulator
        self.put(0x23, self.accumulator)
        if due_by_fall:
            self.put(0x9A, 0xFD)
        self.jump(wanted.place - len(code))
        if code:
            self.put(*code)


def program_of(chance: Chance, wanted: Wanted, names: list[str]) -> Program:
    """A program that makes a wanted state."""
    program = Program(chance)
    program.start()
    if wanted.keys:
        program.wait_for_keys(names)
    if wanted.service:
        program.interrupted(wanted.request)
    elif wanted.flag:
        program.overflowed()
    if wanted.service and not wanted.flag:
        program.flag_cleared()
    program.memory()
    program.ports(wanted)
    program.flags(wanted)
    program.finish(wanted)
    return program
