"""A single step as a vector: which state is wanted for an instruction, and what is told of the step."""
from __future__ import annotations

from typing import Any, Optional

from .machine import Kbd48, Seen, State, Texts
from .program import AC, C, Chance, Program, Wanted, program_of

CLOCK, DATA = 1, 2
# First bytes of the instructions to which a wire, the timer or a request matters.
OF_T0, OF_T1 = {0x26, 0x36}, {0x46, 0x56}
OF_TIMER = {0x25, 0x35, 0x42, 0x45, 0x55, 0x62, 0x65}
OF_SERVICE = {0x25, 0x35, 0x83, 0x93, *range(0x04, 0x100, 0x20), *range(0x14, 0x100, 0x20)}
READS_PAGE = {0xA3, 0xB3}
INS, JTF, MOVP3, DIS_TCNTI, RETR, DA = 0x08, 0x16, 0xE3, 0x35, 0x93, 0x57
# What DA A finds, in turn: the digits of A from and to, the high one first, and the carries. The first four tell most: it
# adds 6 with AC clear, and with AC set; it adds 60 for the carry of the low digit, for C, and for the high digit.
DECIMAL = [((9, 9), (10, 15), 0), ((0, 8), (0, 9), C | AC), ((0, 8), (10, 15), C), ((10, 15), (0, 9), AC),
           ((0, 8), (10, 15), AC), ((0, 9), (0, 9), C), ((0, 15), (10, 15), C | AC), ((0, 9), (0, 9), 0)]

# Instructions that do different things in different states come again in each turn.
RICH = [0x08, 0x16, 0x26, 0x35, 0x36, 0x46, 0x55, 0x56, 0x57, 0x57, 0x57, 0x62, 0x86, 0x93, 0xA3, 0xB3]


def place_for(chance: Chance, first: int, long: bool, turn: int) -> int:
    """Where the step's instruction stands: anywhere past the program, at the end of a page, or at the last places of
    all. What has two bytes or reads its page stands at an end every other time."""
    at_end = (long or first in READS_PAGE) and turn % 2 == 1
    kind = chance.below(10)
    before_end = 0 if at_end and not long else chance.one_of(0, 0, 1, 2)
    if kind == 0 or (at_end and kind < 3):
        return 0x7FF - before_end % 2
    if at_end or kind < 4:
        return 0x2FF + (chance.below(5) << 8) - before_end
    return 0x204 + chance.below(0x5F0)


def digit(chance: Chance, least: int, most: int) -> int:
    """A digit from the least to the most."""
    return least + chance.below(most - least + 1)


def wanted_for(chance: Chance, texts: Texts, first: int, turn: int) -> Wanted:
    """What is wanted for an instruction with this first byte that comes for the turn-th time: what matters to it every
    other time, and all else by chance."""
    odd = turn % 2 == 1
    wanted = Wanted(service=chance.often(0.5 if first in OF_SERVICE and odd else 0.12), flag=chance.often(0.3),
                    keys=chance.often(0.05), run=chance.one_of("off", "timer", "timer", "counter"),
                    approach=chance.one_of("", "", "mb", "low", "high"), high=chance.often(0.35),
                    place=place_for(chance, first, texts.is_long(first), turn))
    wanted.request = wanted.service and chance.often(0.5)
    near = chance.below(10)
    if wanted.run != "off":
        wanted.near = "step" if near < (8 if first in OF_TIMER and odd else 2) else ""
        if near == 9 and not wanted.service:
            wanted.near, wanted.approach = "due", ""
    if first in (DIS_TCNTI, RETR) and odd:
        wanted.service = wanted.request = True
    if first == JTF:
        wanted.flag = odd
    if first == INS and odd:
        wanted.keys = True
    if first == DA:
        high, low, wanted.carries = DECIMAL[turn % len(DECIMAL)]
        wanted.accumulator = digit(chance, *high) << 4 | digit(chance, *low)
        wanted.near = "" if wanted.near == "due" else wanted.near
    if first in OF_T0:
        wanted.t0, wanted.approach = int(not odd), ""
    if first in OF_T1:
        wanted.t1, wanted.approach = int(not odd), ""
    return wanted


def read_by(first: int, place: int, before: State) -> Optional[int]:
    """The place of program memory that an instruction reads besides its own bytes, or None."""
    if first in READS_PAGE:
        return (place + 1) & 0x700 | before["a"]
    return 0x300 | before["a"] if first == MOVP3 else None


def pins_of(program: Program, seen: Seen) -> dict[str, int]:
    """The levels of the pins in the step. A wire is as the latch of port 2 left it, since nothing else pulls it here; the
    bus is the selected column's rows, each low where its key is down."""
    latch, column = seen.before["p2"], seen.before["p1"] & 15
    down = [key % 8 for key in program.pressed if key // 8 == column]
    return {"t0": latch & CLOCK, "t1": (latch & DATA) >> 1, "t1_before": (seen.earlier["p2"] & DATA) >> 1, "int": 1,
            "p1": 255, "p2": 255, "bus": 255 - sum(1 << row for row in down)}


def told(state: State, cells: list[int], listed: list[int], rom: list[list[int]]) -> dict[str, Any]:
    """A state as a vector has it."""
    shown = {name: value for name, value in state.items() if name not in ("steps", "cycles")}
    return {**shown, "ram": [[cell, cells[cell]] for cell in listed], "rom": rom}


def put_instruction(chance: Chance, texts: Texts, program: Program, place: int, first: int) -> list[int]:
    """Puts the instruction of the step at a place, and answers its bytes. Behind the last place comes place 0."""
    program.image[place] = first
    if not texts.is_long(first):
        return [first]
    second = program.image.setdefault((place + 1) & 0x7FF, chance.byte())
    return [first, second]


def vector(kbd48: Kbd48, texts: Texts, names: list[str], chance: Chance, first: int, turn: int) -> Optional[dict[str, Any]]:
    """A vector for an instruction with this first byte, or None where this state won't do."""
    wanted = wanted_for(chance, texts, first, turn)
    program = program_of(chance, wanted, names)
    place = wanted.place
    code = put_instruction(chance, texts, program, place, first)
    # What the instruction reads depends on A, which the last MOV A puts.
    reads = read_by(first, place, {"a": program.accumulator})
    if reads is not None:
        program.image.setdefault(reads, chance.byte())
    seen = kbd48.seen(program.image, program.keys, program.steps)
    if seen is None or seen.before["pc"] & 0x7FF != place:
        return None
    before, behind = seen.before, seen.behind
    listed = [cell for cell in range(128)
              if cell < 0x20 or seen.cells_before[cell] or seen.cells_behind[cell]]
    places = {(place + at) & 0x7FF for at in range(len(code))} | ({reads} if reads is not None else set())
    rom = [[at, program.image[at]] for at in sorted(places)]
    entry = before["rq"] and before["tim"] and not before["svc"]
    fetched = [] if entry else [[place + at & 0x7FF, byte, "fetch"] for at, byte in enumerate(code)]
    inside = behind["cycles"] - before["cycles"] - len(fetched)
    name = "%s %s" % (bytes(code).hex(" ").upper(), texts.text(place, code))
    return {"name": "entry of the timer's interrupt" if entry else name, "pins": pins_of(program, seen),
            "initial": told(before, seen.cells_before, listed, rom), "final": told(behind, seen.cells_behind, listed, rom),
            "cycles": fetched + [[None, None, "inside"]] * inside}
