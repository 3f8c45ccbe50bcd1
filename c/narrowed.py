"""A proved LLVM module for processors whose pointers have 32 bits. c/cross uses it.

Rattle writes its text for pointers of 64 bits: memory of bytes, with each part at a fixed offset, and eight bytes for a
pointer. On a processor of 32 bits such text means the same as long as no pointer lies among other bytes, none is read as a
number or made of one, and none is copied with the bytes around it. So only those forms of lines are let through which are
known to mean the same, and any other is refused:

- numbers of 1 to 64 bits, in registers and in memory, with the operations that are listed here;
- memory of bytes, copied and filled in numbers of bytes that are known;
- a pointer in a slot of its own, of which nothing but loads and stores of the whole pointer knows;
- the pointer that a caller in C has written, read where READS_FROM_C says.

Of the compiled object, only `memcpy`, `memmove` and `memset` may be left to the linker. No proof covers what is made of it."""
from __future__ import annotations

import re
import struct
from dataclasses import dataclass, field
from pathlib import Path

# Which functions read a pointer that C has written, through which parameter.
READS_FROM_C = {"kbd48_chip::chip_at::ChipAt::chip": "%a0"}
LEFT_TO_THE_LINKER = {"memcpy", "memmove", "memset"}


class Refused(Exception):
    """The module has something that isn't known to mean the same with pointers of 32 bits."""


NUMBER = r"i(?:1|8|16|32|64)"
VALUE = r"(?:%[\w.]+|-?\d+|true|false)"
NAME = r'@(?:"(?P<quoted>[^"]*)"|(?P<plain>[\w.]+))'
NOTES = r"(?:, ![a-z]+ !\d+)*"
ARGUMENT = rf"(?:{NUMBER} {VALUE}|ptr %[\w.]+)"
TO = r"%(?P<to>[\w.]+) = "

# The forms of a function's lines.
FORMS = {name: re.compile(form + r"(?:\s*;.*)?") for name, form in {
    "label": r"[\w.]+:",
    "slot": TO + r"alloca ptr, align 8",
    "room": TO + rf"alloca (?:{NUMBER}|\[\d+ x i8\]), align \d+",
    "reads a pointer": TO + rf"load ptr, ptr (?P<at>%[\w.]+), align 8{NOTES}",
    "writes a pointer": r"store ptr (?P<value>%[\w.]+), ptr (?P<at>%[\w.]+), align 8",
    "reads a number": TO + rf"load {NUMBER}, ptr (?P<at>%[\w.]+), align \d+{NOTES}",
    "writes a number": rf"store {NUMBER} {VALUE}, ptr (?P<at>%[\w.]+), align \d+",
    "place": TO + rf"getelementptr (?:inbounds )?(?:nuw )?i8, ptr (?P<at>%[\w.]+), i64 {VALUE}",
    "operation": TO + rf"(?:add|sub|mul|udiv|urem|and|or|xor|shl|lshr) (?:nuw )?(?:nsw )?{NUMBER} {VALUE}, {VALUE}",
    "comparison": TO + rf"icmp (?:eq|ne|ult|ule|ugt|uge) {NUMBER} {VALUE}, {VALUE}",
    "width": TO + rf"(?:zext|trunc) {NUMBER} {VALUE} to {NUMBER}",
    "fill": rf"call void @llvm\.memset\.p0\.i64\(ptr (?P<at>%[\w.]+), i8 {VALUE}, i64 \d+, i1 false\)",
    "copy": r"call void @llvm\.mem(?:move|cpy)\.p0\.p0\.i64\(ptr (?P<at>%[\w.]+), ptr (?P<value>%[\w.]+), i64 \d+, i1 false\)",
    "call": rf"(?:{TO})?call (?:void|ptr|{NUMBER}) {NAME}\((?P<arguments>(?:{ARGUMENT}(?:, {ARGUMENT})*)?)\)",
    "jump": rf"br (?:label %[\w.]+|i1 {VALUE}, label %[\w.]+, label %[\w.]+)",
    "choice": rf"switch {NUMBER} {VALUE}, label %[\w.]+ \[",
    "arm": rf"{NUMBER} -?\d+, label %[\w.]+",
    "end of a choice": r"\]",
    "answer": rf"ret (?:void|{NUMBER} {VALUE}|ptr (?P<value>%[\w.]+))",
    "nowhere": r"unreachable",
}.items()}
POINTERS = ("reads a pointer", "writes a pointer")
REGISTER = re.compile(r"%[\w.]+")
HEAD = re.compile(rf"define (?:internal )?(?:noundef )?(?:void|ptr|{NUMBER}) {NAME}"
                  rf"\((?:(?:ptr|{NUMBER})(?: noundef)? %\w+(?:, (?:ptr|{NUMBER})(?: noundef)? %\w+)*)?\) #\d+ \{{")
OUTSIDE = re.compile(r"|;.*|source_filename = .*|target (?:datalayout|triple) = .*|attributes #\d+ = \{[^{}]*\}|![\w.]+ = .*"
                     r"|declare void @llvm\.mem(?:set\.p0|move\.p0\.p0|cpy\.p0\.p0)\.i64\(.*")


def refused(line: str, why: str) -> Refused:
    return Refused(f"{why}: {line.strip()}")


@dataclass
class Line:
    """A line of a function: its form, what the form found, and the registers that it names but for the one that it makes."""

    text: str
    form: str
    found: dict[str, str | None]
    named: list[str] = field(init=False)

    def __post_init__(self):
        self.named = REGISTER.findall(self.text.partition(";")[0])
        if self.found.get("to"):
            self.named.remove("%" + self.found["to"])


def line_of(text: str) -> Line:
    for name, form in FORMS.items():
        if found := form.fullmatch(text.strip()):
            return Line(text, name, found.groupdict())
    raise refused(text, "a form that isn't known")


class Function:
    """A function of the module. A slot is room for one pointer. A slice is room for a pointer and, eight bytes on, a number."""

    def __init__(self, name: str, lines: list[str], defined: set[str]):
        self.name, self.defined, self.lines = name, defined, [line_of(it) for it in lines]
        self.slots = self.made("slot")
        moved = {it.found["at"] for it in self.lines if it.form in POINTERS}
        self.slices = moved & self.made("room", " alloca [16 x i8], align 8")
        self.lengths = {f"%{it.found['to']}" for it in self.lines if it.found.get("at") in self.slices and it.form == "place"}

    def made(self, form: str, words: str = "") -> set[str]:
        return {f"%{it.found['to']}" for it in self.lines if it.form == form and words in it.text}

    def is_fit(self, it: Line, register: str) -> bool:
        """Whether a line may use this register as its address: a pointer is read and written whole, and a slice's number too."""
        if register in self.slots | self.slices and it.form in POINTERS:
            return True
        if register in self.slices:
            return it.form == "fill" and " i64 16," in it.text or it.form == "place" and it.text.endswith(" i64 8")
        if register in self.lengths:
            return bool(re.search(r"(?:= load|^ *store) i64\b", it.text))
        return register not in self.slots

    def check(self) -> None:
        """Refuses a line that may mean something else."""
        for it in self.lines:
            at, others = it.found.get("at"), list(it.named)
            if at:
                others.remove(at)
            if it.form in POINTERS and at not in self.slots | self.slices and (it.form, at) != ("reads a pointer", READS_FROM_C.get(self.name)):
                raise refused(it.text, f"a pointer that lies among other bytes, in {self.name}")
            if at and not self.is_fit(it, at) or (self.slots | self.slices | self.lengths) & set(others):
                raise refused(it.text, f"a pointer's room used otherwise, in {self.name}")
            if it.form == "call" and (it.found["quoted"] or it.found["plain"]) not in self.defined:
                raise refused(it.text, f"a call of what isn't in the module, in {self.name}")


def check(text: str) -> None:
    """Refuses the module if a line of it isn't known to mean the same."""
    defined = {found[1] or found[2] for found in re.finditer(r'^define .*?@(?:"([^"]*)"|([\w.]+))\(', text, re.MULTILINE)}
    name, lines = "", None
    for line in text.split("\n"):
        if lines is None:
            if found := HEAD.fullmatch(line):
                name, lines = found["quoted"] or found["plain"], []
            elif not OUTSIDE.fullmatch(line):
                raise refused(line, "a form that isn't known")
        elif line == "}":
            Function(name, lines, defined).check()
            lines = None
        elif line.strip():
            lines.append(line)


def narrowed(text: str) -> str:
    """The module with pointers of 32 bits: where one lies is a multiple of four, and a number of bytes has 32 bits."""
    check(text)
    text = re.sub(r"((?:load ptr, ptr|store ptr %[\w.]+, ptr) %[\w.]+, align) 8", r"\1 4", text)
    text = re.sub(r"(@llvm\.mem(?:set\.p0|move\.p0\.p0|cpy\.p0\.p0)\.)i64(\(ptr [^()]*?, (?:i8 \S+|ptr \S+), )i64 (\d+)", r"\1i32\2i32 \3", text)
    return re.sub(r"^(declare void @llvm\.mem\w+\.p0(?:\.p0)?\.)i64(\(.*, )i64(, i1)", r"\1i32\2i32\3", text, flags=re.MULTILINE)


def undefined_in(path: Path) -> set[str]:
    """What an object of 32 bits leaves to the linker."""
    data = path.read_bytes()
    if data[:6] != b"\x7fELF\x01\x01":
        raise Refused(f"{path.name} is no object of 32 bits with the lowest byte first")
    offset, = struct.unpack_from("<I", data, 32)
    size, count = struct.unpack_from("<HH", data, 46)
    sections = [struct.unpack_from("<10I", data, offset + size * at) for at in range(count)]
    left = set()
    for it in sections:
        if it[1] != 2:
            continue
        names = data[sections[it[6]][4]:]
        for at in range(it[4], it[4] + it[5], 16):
            name, _, _, _, _, where = struct.unpack_from("<IIIBBH", data, at)
            if name and not where:
                left.add(names[name:names.index(b"\0", name)].decode("ascii"))
    return left


def check_object(path: Path) -> None:
    """Refuses an object that needs more of the linker than the three functions of memory."""
    if others := undefined_in(path) - LEFT_TO_THE_LINKER:
        raise Refused(f"{path.name} needs {', '.join(sorted(others))}")
