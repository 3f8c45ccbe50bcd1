"""A small MCS-48 core of its own, written after docs/PROFILE.md and sharing nothing with the program: what an author of an
emulator has, so that the vectors can be tried on it, and on cores that are wrong in one thing each (mutants)."""
from __future__ import annotations

from typing import Any, Callable

State = dict[str, Any]
BIT_11 = 0x800
C, AC, F0, BANK = 0x80, 0x40, 0x20, 0x10


class Core:
    """The processor: the fields of a vector's state, data memory, program memory and pins."""

    def __init__(self, state: State, pins: dict[str, int]):
        self.s = {name: value for name, value in state.items() if name not in ("ram", "rom", "r")}
        self.ram, self.rom = [0] * 128, [0] * 2048
        for cell, byte in state["ram"]:
            self.ram[cell] = byte
        for place, byte in state["rom"]:
            self.rom[place] = byte
        self.pins = pins

    # --- parts ---

    def flag(self, bit: int) -> int:
        """A flag of the status, 0 or 1."""
        return int(self.s["psw"] & bit != 0)

    def put_flag(self, bit: int, value: bool) -> None:
        """Sets or clears a flag of the status."""
        self.s["psw"] = self.s["psw"] & ~bit | bit * bool(value)

    def register(self, number: int) -> int:
        """The cell of a register of the selected bank."""
        return (24 if self.flag(BANK) else 0) + number

    def pointed(self, number: int) -> int:
        """The cell at which R0 or R1 points."""
        return self.ram[self.register(number)] & 127

    def after(self, place: int) -> int:
        """The place behind a place: bit 11 doesn't count."""
        return place & BIT_11 | (place + 1) & 0x7FF

    def byte_at(self, place: int) -> int:
        """A byte of program memory."""
        return self.rom[place & 0x7FF]

    def fetch(self) -> int:
        """The byte at the counter, which goes on."""
        byte = self.byte_at(self.s["pc"])
        self.s["pc"] = self.after(self.s["pc"])
        return byte

    def push(self) -> None:
        """Stores the counter and the high half of the status."""
        pointer = self.s["psw"] & 7
        self.ram[8 + 2 * pointer] = self.s["pc"] & 255
        self.ram[9 + 2 * pointer] = self.s["psw"] & 0xF0 | self.s["pc"] >> 8
        self.s["psw"] = self.s["psw"] & ~7 | (pointer + 1) & 7

    def pop(self) -> int:
        """Restores the counter; answers the stored half of the status."""
        pointer = (self.s["psw"] - 1) & 7
        self.s["psw"] = self.s["psw"] & ~7 | pointer
        high = self.ram[9 + 2 * pointer]
        self.s["pc"] = self.ram[8 + 2 * pointer] | (high & 15) << 8
        return high & 0xF0

    # --- what a mutant may do otherwise ---

    def enter(self, place: int) -> None:
        """The entry of an interrupt."""
        self.push()
        self.s["pc"], self.s["svc"] = place, 1

    def branch(self, taken: bool) -> None:
        """A conditional jump, whose page is that of its second byte."""
        page = self.s["pc"] & 0xF00
        low = self.fetch()
        if taken:
            self.s["pc"] = page | low

    def far(self, first: int) -> int:
        """The target of JMP and CALL, whose second byte comes."""
        low = self.fetch()
        return first >> 5 << 8 | low | BIT_11 * (self.s["mb"] and not self.s["svc"])

    def jmpp(self) -> None:
        """A jump to what stands in program memory."""
        page = self.s["pc"] & 0xF00
        self.s["pc"] = page | self.byte_at(page | self.s["a"])

    def movp(self) -> None:
        """A byte of the page of the following instruction."""
        self.s["a"] = self.byte_at(self.s["pc"] & 0xF00 | self.s["a"])

    def on_t0(self, level: int) -> bool:
        """Whether T0 has this level."""
        return self.pins["t0"] == level

    def on_t1(self, level: int) -> bool:
        """Whether T1 has this level."""
        return self.pins["t1"] == level

    def on_int_low(self) -> bool:
        """Whether INT is low."""
        return self.pins["int"] == 0

    def jtf(self) -> None:
        """A jump where the timer flag is set, which it clears."""
        taken, self.s["tf"] = self.s["tf"], 0
        self.branch(taken)

    def disable_timer(self) -> None:
        """DIS TCNTI clears a request."""
        self.s["tim"] = self.s["rq"] = 0

    def start_timer(self) -> None:
        """STRT T clears the prescaler."""
        self.s["run"], self.s["pre"] = "timer", 0

    def add(self, value: int, carry: int) -> None:
        """Addition, with both carries."""
        a = self.s["a"]
        self.put_flag(AC, (a & 15) + (value & 15) + carry > 15)
        self.put_flag(C, a + value + carry > 255)
        self.s["a"] = a + value + carry & 255

    def decimal(self) -> None:
        """DA A: two additions."""
        a = self.s["a"]
        low = a + 6 if a & 15 > 9 or self.flag(AC) else a
        if (low & 255) >> 4 > 9 or self.flag(C) or low > 255:
            low += 0x60
            self.put_flag(C, True)
        self.s["a"] = low & 255

    def ret_flags(self) -> None:
        """RETR: the counter, the high half of the status, and the service's end."""
        high = self.pop()
        self.s["psw"] = self.s["psw"] & 15 | high
        self.s["svc"] = 0

    def bus_pins(self) -> int:
        """What INS reads."""
        return self.pins["bus"]

    def counted_fall(self) -> bool:
        """Whether the counter's input fell."""
        return self.pins["t1_before"] == 1 and self.pins["t1"] == 0

    def overflow(self) -> None:
        """T went from FF to 00."""
        self.s["tf"] = 1
        if self.s["tim"]:
            self.s["rq"] = 1

    def tick(self, ran: str, cycles: int) -> None:
        """The timer, behind the instruction."""
        counts = 0
        if ran == self.s["run"] == "timer":
            self.s["pre"] += cycles
            counts, self.s["pre"] = divmod(self.s["pre"], 32)
        elif ran == self.s["run"] == "counter":
            counts = int(self.counted_fall())
        if counts:
            self.s["t"] = (self.s["t"] + 1) & 255
            if self.s["t"] == 0:
                self.overflow()

    # --- the step ---

    def due(self) -> bool:
        """Whether the timer's interrupt is entered."""
        return bool(self.s["rq"] and self.s["tim"] and not self.s["svc"])

    def step(self) -> int:
        """One step; answers its cycles."""
        ran = self.s["run"]
        if self.s["ext"] and self.pins["int"] == 0 and not self.s["svc"]:
            self.enter(3)
            cycles = 2
        elif self.due():
            self.s["rq"] = 0
            self.enter(7)
            cycles = 2
        else:
            first = self.fetch()
            cycles = 2 if first in TWO_CYCLES else 1
            ROWS[first](self, first)
        self.tick(ran, cycles)
        return cycles

    def told(self) -> State:
        """The state, with the registers of the selected bank."""
        return {**self.s, "r": [self.ram[self.register(number)] for number in range(8)]}


def _logic(core: Core, first: int, value: int) -> None:
    """The operation that a first byte's high digit says, on A and a value."""
    row = first >> 4
    if row in (6, 7, 0, 1):
        core.add(value, core.flag(C) if row in (7, 1) else 0)
    elif row == 4:
        core.s["a"] |= value
    elif row == 5:
        core.s["a"] &= value
    elif row == 0xD:
        core.s["a"] ^= value
    else:
        core.s["a"] = value


def _exchange(core: Core, cell: int) -> None:
    """XCH with a cell."""
    core.s["a"], core.ram[cell] = core.ram[cell], core.s["a"]


def _exchange_digits(core: Core, cell: int) -> None:
    """XCHD with a cell."""
    a, byte = core.s["a"], core.ram[cell]
    core.s["a"], core.ram[cell] = a & 0xF0 | byte & 15, byte & 0xF0 | a & 15


def _store(core: Core, cell: int, value: int) -> None:
    """A cell takes a byte."""
    core.ram[cell] = value & 255


def _count_down(core: Core, cell: int) -> None:
    """DJNZ."""
    _store(core, cell, core.ram[cell] - 1)
    core.branch(core.ram[cell] != 0)


def _turn(core: Core, left: bool, through: bool) -> None:
    """A rotation of A, through the carry or not."""
    a = core.s["a"]
    out = a >> 7 if left else a & 1
    into = core.flag(C) if through else out
    core.s["a"] = (a << 1 | into) & 255 if left else a >> 1 | into << 7
    if through:
        core.put_flag(C, bool(out))


def _call(core: Core, first: int) -> None:
    """CALL."""
    target = core.far(first)
    core.push()
    core.s["pc"] = target


def _set(core: Core, name: str, value: Any) -> None:
    """A field of the state takes a value."""
    core.s[name] = value


Row = Callable[[Core, int], None]


def _rows() -> dict[int, Row]:
    """What each first byte does."""
    rows: dict[int, Row] = {
        0x00: lambda c, b: None, 0x75: lambda c, b: None,
        0x02: lambda c, b: _set(c, "bus", c.s["a"]), 0x39: lambda c, b: _set(c, "p1", c.s["a"]),
        0x3A: lambda c, b: _set(c, "p2", c.s["a"]), 0x08: lambda c, b: _set(c, "a", c.bus_pins()),
        0x09: lambda c, b: _set(c, "a", c.s["p1"] & c.pins["p1"]), 0x0A: lambda c, b: _set(c, "a", c.s["p2"] & c.pins["p2"]),
        0x05: lambda c, b: _set(c, "ext", 1), 0x15: lambda c, b: _set(c, "ext", 0),
        0x25: lambda c, b: _set(c, "tim", 1), 0x35: lambda c, b: c.disable_timer(),
        0x07: lambda c, b: _set(c, "a", c.s["a"] - 1 & 255), 0x17: lambda c, b: _set(c, "a", c.s["a"] + 1 & 255),
        0x27: lambda c, b: _set(c, "a", 0), 0x37: lambda c, b: _set(c, "a", c.s["a"] ^ 255),
        0x47: lambda c, b: _set(c, "a", c.s["a"] >> 4 | c.s["a"] << 4 & 0xF0), 0x57: lambda c, b: c.decimal(),
        0x67: lambda c, b: _turn(c, False, True), 0x77: lambda c, b: _turn(c, False, False),
        0xE7: lambda c, b: _turn(c, True, False), 0xF7: lambda c, b: _turn(c, True, True),
        0x97: lambda c, b: c.put_flag(C, False), 0xA7: lambda c, b: c.put_flag(C, not c.flag(C)),
        0x85: lambda c, b: c.put_flag(F0, False), 0x95: lambda c, b: c.put_flag(F0, not c.flag(F0)),
        0xA5: lambda c, b: _set(c, "f1", 0), 0xB5: lambda c, b: _set(c, "f1", 1 - c.s["f1"]),
        0xC5: lambda c, b: c.put_flag(BANK, False), 0xD5: lambda c, b: c.put_flag(BANK, True),
        0xE5: lambda c, b: _set(c, "mb", 0), 0xF5: lambda c, b: _set(c, "mb", 1),
        0xC7: lambda c, b: _set(c, "a", c.s["psw"] | 8), 0xD7: lambda c, b: _set(c, "psw", c.s["a"] | 8),
        0x42: lambda c, b: _set(c, "a", c.s["t"]), 0x62: lambda c, b: _set(c, "t", c.s["a"]),
        0x45: lambda c, b: _set(c, "run", "counter"), 0x55: lambda c, b: c.start_timer(),
        0x65: lambda c, b: _set(c, "run", "off"),
        0x83: lambda c, b: c.pop() and None, 0x93: lambda c, b: c.ret_flags(),
        0xA3: lambda c, b: c.movp(), 0xB3: lambda c, b: c.jmpp(), 0xE3: lambda c, b: _set(c, "a", c.byte_at(0x300 | c.s["a"])),
        0x16: lambda c, b: c.jtf(), 0x26: lambda c, b: c.branch(c.on_t0(0)), 0x36: lambda c, b: c.branch(c.on_t0(1)),
        0x46: lambda c, b: c.branch(c.on_t1(0)), 0x56: lambda c, b: c.branch(c.on_t1(1)),
        0x76: lambda c, b: c.branch(bool(c.s["f1"])), 0x86: lambda c, b: c.branch(c.on_int_low()),
        0x96: lambda c, b: c.branch(c.s["a"] != 0), 0xC6: lambda c, b: c.branch(c.s["a"] == 0),
        0xB6: lambda c, b: c.branch(bool(c.flag(F0))), 0xE6: lambda c, b: c.branch(not c.flag(C)),
        0xF6: lambda c, b: c.branch(bool(c.flag(C))),
        0x88: lambda c, b: _set(c, "bus", c.s["bus"] | c.fetch()), 0x89: lambda c, b: _set(c, "p1", c.s["p1"] | c.fetch()),
        0x8A: lambda c, b: _set(c, "p2", c.s["p2"] | c.fetch()), 0x98: lambda c, b: _set(c, "bus", c.s["bus"] & c.fetch()),
        0x99: lambda c, b: _set(c, "p1", c.s["p1"] & c.fetch()), 0x9A: lambda c, b: _set(c, "p2", c.s["p2"] & c.fetch())}
    for first in (0x03, 0x13, 0x23, 0x43, 0x53, 0xD3):
        rows[first] = lambda c, b: _logic(c, b, c.fetch())
    for page in range(8):
        rows[page << 5 | 0x04] = lambda c, b: _set(c, "pc", c.far(b))
        rows[page << 5 | 0x14] = _call
        rows[page << 5 | 0x12] = lambda c, b: c.branch(bool(c.s["a"] >> (b >> 5) & 1))
    for high in (0x40, 0x50, 0x60, 0x70, 0xD0, 0xF0):
        for number in range(8):
            rows[high | 8 | number] = lambda c, b: _logic(c, b, c.ram[c.register(b & 7)])
        for number in (0, 1):
            rows[high | number] = lambda c, b: _logic(c, b, c.ram[c.pointed(b & 1)])
    for number in range(8):
        rows[0x18 | number] = lambda c, b: _store(c, c.register(b & 7), c.ram[c.register(b & 7)] + 1)
        rows[0x28 | number] = lambda c, b: _exchange(c, c.register(b & 7))
        rows[0xA8 | number] = lambda c, b: _store(c, c.register(b & 7), c.s["a"])
        rows[0xB8 | number] = lambda c, b: _store(c, c.register(b & 7), c.fetch())
        rows[0xC8 | number] = lambda c, b: _store(c, c.register(b & 7), c.ram[c.register(b & 7)] - 1)
        rows[0xE8 | number] = lambda c, b: _count_down(c, c.register(b & 7))
    for number in (0, 1):
        rows[0x10 | number] = lambda c, b: _store(c, c.pointed(b & 1), c.ram[c.pointed(b & 1)] + 1)
        rows[0x20 | number] = lambda c, b: _exchange(c, c.pointed(b & 1))
        rows[0x30 | number] = lambda c, b: _exchange_digits(c, c.pointed(b & 1))
        rows[0x80 | number] = lambda c, b: _set(c, "a", 255)
        rows[0x90 | number] = lambda c, b: None
        rows[0xA0 | number] = lambda c, b: _store(c, c.pointed(b & 1), c.s["a"])
        rows[0xB0 | number] = lambda c, b: _store(c, c.pointed(b & 1), c.fetch())
    for port in range(4):
        rows[0x0C | port] = lambda c, b: _set(c, "a", 15)
        for high in (0x3C, 0x8C, 0x9C):
            rows[high | port] = lambda c, b: None
    return rows


ROWS = _rows()
# The rows of two cycles: those with a second byte, and these of one.
TWO_CYCLES = {0x02, 0x08, 0x09, 0x0A, 0x39, 0x3A, 0x80, 0x81, 0x83, 0x90, 0x91, 0x93, 0xA3, 0xB3, 0xE3, 0x03, 0x13, 0x23, 0x43,
              0x53, 0xD3, 0x16, 0x26, 0x36, 0x46, 0x56, 0x76, 0x86, 0x96, 0xB6, 0xC6, 0xE6, 0xF6, 0x88, 0x89, 0x8A, 0x98,
              0x99, 0x9A, 0xB0, 0xB1, *range(0xB8, 0xC0), *range(0xE8, 0xF0), *range(0x0C, 0x10), *range(0x3C, 0x40),
              *range(0x8C, 0x90), *range(0x9C, 0xA0), *range(0x04, 0x100, 0x20), *range(0x14, 0x100, 0x20),
              *range(0x12, 0x100, 0x20)}
