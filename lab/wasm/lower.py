"""Makes of a WebAssembly module with a 64-bit memory one with a 32-bit memory that does the same.

Each address loses its upper half just before its use; pointers stay 64 bits wide everywhere else, so the exports keep
their types. It holds as long as memory has less than 4 GiB, which a 32-bit memory has. What isn't known is refused. The
format is that of the WebAssembly Core Specification 3.0, chapter 5.

Debian's Binaryen doesn't replace this. A module of LLVM with a 64-bit memory has a 64-bit table, and version 108 of `wasm-opt`
refuses each such module. If the table's flag is changed by hand, `--memory64-lowering` takes the module of the library, which
calls nothing through its table. It still refuses that of the program, whose calls through the table have 64-bit numbers."""

from __future__ import annotations

MAGIC = b"\0asm\1\0\0\0"
I32, I64, F32, F64 = 0x7F, 0x7E, 0x7D, 0x7C
CUSTOM, TYPE, IMPORT, FUNCTION, TABLE, MEMORY, GLOBAL, EXPORT, START, ELEMENT, CODE, DATA, DATA_COUNT = range(13)
OF_64 = 4  # the flag of a memory or a table whose addresses are 64 bits wide
BLOCKS = {0x02, 0x03, 0x04}
PLAIN = {0x00, 0x01, 0x05, 0x0B, 0x0F, 0x1A, 0x1B, *range(0x45, 0xC5)}
INDEXED = {0x0C, 0x0D, 0x10, 0x20, 0x21, 0x22, 0x23, 0x24}
BRANCH_TABLE, CALL_INDIRECT, SELECT, SIZE, GROW, MORE = 0x0E, 0x11, 0x1C, 0x3F, 0x40, 0xFC
LOADS = range(0x28, 0x36)
STORES = {0x36: I32, 0x37: I64, 0x38: F32, 0x39: F64, 0x3A: I32, 0x3B: I32, 0x3C: I64, 0x3D: I64, 0x3E: I64}
I32_CONST, I64_CONST, F32_CONST, F64_CONST = 0x41, 0x42, 0x43, 0x44
SATURATING, COPY, FILL = range(8), 10, 11
END = 0x0B
WRAP, EXTEND_U, EXTEND_S = b"\xa7", b"\xad", b"\xac"
GET, PUT = b"\x20", b"\x21"


class Refused(Exception):
    """The module has something that isn't known here."""


class Reader:
    """Bytes, and how far they are read."""

    def __init__(self, data: bytes, at: int = 0):
        self.data, self.at = data, at

    def byte(self) -> int:
        self.at += 1
        return self.data[self.at - 1]

    def unsigned(self) -> int:
        value = shift = 0
        while True:
            byte = self.byte()
            value |= (byte & 127) << shift
            shift += 7
            if byte < 128:
                return value

    def signed(self) -> int:
        start = self.at
        value = self.unsigned()
        bits = 7 * (self.at - start)
        return value - (1 << bits) if value >> (bits - 1) else value

    def take(self, count: int) -> bytes:
        self.at += count
        return self.data[self.at - count : self.at]


def unsigned(number: int) -> bytes:
    """LEB128."""
    out = bytearray()
    while True:
        byte, number = number & 127, number >> 7
        out.append(byte | (128 if number else 0))
        if not number:
            return bytes(out)


def signed(number: int) -> bytes:
    """LEB128 with a sign."""
    out = bytearray()
    while True:
        byte, number = number & 127, number >> 7
        if number == (-1 if byte & 64 else 0):
            return bytes([*out, byte])
        out.append(byte | 128)


def limits(reader: Reader) -> bytes:
    """The limits of a memory or a table, without the flag of 64 bits."""
    flags = reader.byte()
    if not flags & OF_64:
        raise Refused("a memory or a table whose addresses aren't 64 bits wide")
    least = unsigned(reader.unsigned())
    return bytes([flags & ~OF_64]) + least + (unsigned(reader.unsigned()) if flags & 1 else b"")


def place(reader: Reader) -> bytes:
    """Where a segment begins: a constant."""
    if reader.byte() != I64_CONST:
        raise Refused("a segment whose place is no constant")
    number = reader.signed()
    if reader.byte() != END or not 0 <= number < 1 << 32:
        raise Refused("a segment whose place is no constant below 4 GiB")
    return bytes([I32_CONST]) + signed(number - (1 << 32) if number >> 31 else number) + bytes([END])


def alignment(reader: Reader) -> bytes:
    """What follows a load or a store. A linker pads the offset, which needn't be."""
    align, offset = reader.unsigned(), reader.unsigned()
    if align >= 64 or offset >= 1 << 32:
        raise Refused("an offset of 4 GiB, or a memory with a number")
    return unsigned(align) + unsigned(offset)


class Body:
    """The code of a function, and the locals that it needs beside its own."""

    def __init__(self, reader: Reader, end: int, params: int):
        self.reader, self.end = reader, end
        self.locals = [(reader.unsigned(), reader.byte()) for _ in range(reader.unsigned())]
        self.first = params + sum(count for count, _ in self.locals)
        self.spare: dict[tuple[int, int], int] = {}

    def parked(self, op: bytes, kind: int, number: int = 0) -> bytes:
        """Puts the top of the stack into a spare local of this type, or gets it."""
        return op + unsigned(self.spare.setdefault((kind, number), self.first + len(self.spare)))

    def lowered(self) -> bytes:
        out = bytearray()
        while self.reader.at < self.end:
            out += self.instruction()
        spare = [(1, kind) for kind, _ in self.spare]
        declared = [*self.locals, *spare]
        head = b"".join(unsigned(count) + bytes([kind]) for count, kind in declared)
        return unsigned(len(declared)) + head + bytes(out)

    def instruction(self) -> bytes:
        reader, start = self.reader, self.reader.at
        op = reader.byte()
        before, after = b"", b""
        if op in LOADS:
            return WRAP + bytes([op]) + alignment(reader)
        if op in STORES:
            kind = STORES[op]
            return self.parked(PUT, kind) + WRAP + self.parked(GET, kind) + bytes([op]) + alignment(reader)
        if op in BLOCKS or op in (I32_CONST, I64_CONST):
            reader.signed()
        elif op in INDEXED:
            reader.unsigned()
        elif op == BRANCH_TABLE:
            for _ in range(reader.unsigned() + 1):
                reader.unsigned()
        elif op == SELECT:
            reader.take(reader.unsigned())
        elif op == CALL_INDIRECT:
            reader.unsigned()
            reader.unsigned()
            before = WRAP
        elif op == SIZE:
            reader.byte()
            after = EXTEND_U
        elif op == GROW:
            reader.byte()
            before, after = WRAP, EXTEND_S
        elif op in (F32_CONST, F64_CONST):
            reader.take(4 if op == F32_CONST else 8)
        elif op == MORE:
            before = self.bulk(reader.unsigned())
        elif op not in PLAIN:
            raise Refused(f"the instruction {op:02X}")
        return before + reader.data[start : reader.at] + after

    def bulk(self, sub: int) -> bytes:
        """What goes before memory.copy and memory.fill: their three operands, narrowed."""
        if sub in SATURATING:
            return b""
        if sub not in (COPY, FILL):
            raise Refused(f"the instruction FC {sub}")
        self.reader.take(2 if sub == COPY else 1)
        middle = WRAP if sub == COPY else b""
        parked = WRAP + self.parked(PUT, I32, 1) + middle + self.parked(PUT, I32, 2) + WRAP
        return parked + self.parked(GET, I32, 2) + self.parked(GET, I32, 1)


def parameters(reader: Reader) -> list[int]:
    """How many parameters each type of a function has."""
    counts = []
    for _ in range(reader.unsigned()):
        if reader.byte() != 0x60:
            raise Refused("a type that is no function")
        counts.append(reader.unsigned())
        reader.take(counts[-1])
        reader.take(reader.unsigned())
    return counts


def segments(reader: Reader, kind: int) -> bytes:
    """The segments of a table or of memory."""
    count = reader.unsigned()
    out = bytearray(unsigned(count))
    for _ in range(count):
        if reader.unsigned() != 0:
            raise Refused("a segment of another kind")
        out += unsigned(0) + place(reader)
        many, start = reader.unsigned(), reader.at
        for _ in range(many):
            if kind == ELEMENT:
                reader.unsigned()
            else:
                reader.byte()
        out += unsigned(many) + reader.data[start : reader.at]
    return bytes(out)


def lower(data: bytes) -> bytes:
    """The module with a 32-bit memory."""
    if not data.startswith(MAGIC):
        raise Refused("no module of version 1")
    reader, made = Reader(data, len(MAGIC)), bytearray(MAGIC)
    params: list[int] = []
    types: list[int] = []
    while reader.at < len(data):
        kind, size = reader.byte(), reader.unsigned()
        start, end = reader.at, reader.at + size
        if kind == CUSTOM:  # names and the like: left out
            reader.at = end
            continue
        if kind == TYPE:
            params = parameters(reader)
            out = data[start:end]
        elif kind == FUNCTION:
            types = [reader.unsigned() for _ in range(reader.unsigned())]
            out = data[start:end]
        elif kind in (TABLE, MEMORY):
            count = reader.unsigned()
            out = unsigned(count)
            for _ in range(count):
                out += (bytes([reader.byte()]) if kind == TABLE else b"") + limits(reader)
        elif kind in (ELEMENT, DATA):
            out = segments(reader, kind)
        elif kind == CODE:
            count = reader.unsigned()
            out = unsigned(count)
            for number in range(count):
                stop = reader.unsigned()
                stop += reader.at
                code = Body(reader, stop, params[types[number]]).lowered()
                out += unsigned(len(code)) + code
        elif kind in (GLOBAL, EXPORT, DATA_COUNT):
            out = reader.take(size)
        else:
            raise Refused("an import" if kind == IMPORT else f"a section {kind}")
        if reader.at != end:
            raise Refused(f"a section {kind} with more than it says")
        made += bytes([kind]) + unsigned(len(out)) + out
    return bytes(made)
