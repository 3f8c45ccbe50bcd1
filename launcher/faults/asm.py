"""Assembler sources: what a faulty line probably should be."""
from __future__ import annotations

import re
from functools import lru_cache
from pathlib import Path

from .near import meant, nearest

EXAMPLE = Path(__file__).resolve().parent.parent.parent / "examples/every_instruction.asm"
RESERVED = "A BUS C F0 F1 I LOW P1 P2 P4 P5 P6 P7 PSW R0 R1 R2 R3 R4 R5 R6 R7 T CNT CLK TCNTI RB0 RB1 MB0 MB1 ORG DB EQU".split()
# Words of other assemblers and what this one has in their place.
OTHERS = {
    "END": "there is no END: leave it out",
    "DS": "there is no DS: go on at another place with ORG",
    "DW": "there is no DW: write the two bytes with DB",
    "HIGH": "there is no HIGH: write the number itself",
    "LD": "an 8049 moves with MOV: MOV A,R0",
    "LDA": "an 8049 moves with MOV: MOV A,R0",
    "JUMP": "a jump is JMP",
    "SET": "there is no SET: a name gets its value by EQU, a bit by ORL, the carry by CLR C and CPL C",
    "SETB": "there is no SETB: a bit is set by ORL, the carry by CLR C and CPL C",
    "CLRB": "there is no CLRB: a bit is cleared by ANL",
    "BRA": "a jump is JMP",
    "JR": "a jump is JMP",
    "BNE": "a jump if A isn't 0 is JNZ, and if the carry is 0 JNC",
    "BEQ": "a jump if A is 0 is JZ, and if the carry is 1 JC",
    "LDI": "an 8049 moves with MOV: MOV A,#10",
    "STA": "an 8049 moves with MOV: MOV R0,A",
    "RETI": "the return from an interrupt is RETR",
    "INCLUDE": "there is no INCLUDE: a source is one file",
    "MACRO": "there are no macros: write the lines out",
    "SUB": "there is no subtraction: CPL A, ADD, CPL A",
    "PUSH": "there is no PUSH: keep the value in a register",
    "POP": "there is no POP: keep the value in a register",
    "SJMP": "a jump is JMP",
    "LJMP": "a jump is JMP",
    "AJMP": "a jump is JMP",
    "LCALL": "a call is CALL",
    "ACALL": "a call is CALL",
    "CMP": "there is no comparison: XRL A,.. leaves 0 in A if both are equal",
    "HALT": "there is no HALT: jump to the same place, as in here: JMP here",
}
# The ranges of the numbers that a word takes, if it isn't a byte.
RANGES = {"ORG": (2048, "ORG takes a place from 0 to 2,048 (0800H)"), "JMP": (2047, None), "CALL": (2047, None)}
NUMBER = re.compile(r"[0-9][0-9A-F]*H|[01]+B|[0-9]+", re.IGNORECASE)
NAME = re.compile(r"[A-Z_][A-Z0-9_]{0,30}", re.IGNORECASE)
TOKEN = re.compile(r"[#@]?\w+|\S")


def place(fault):
    return f"line {fault.at}", fault.text.expandtabs(1)


def hints(fault):
    """What would be right, as far as the line shows it."""
    line = Line(fault.text)
    of = {1: spelling, 2: first_word, 3: operands, 4: undefined, 5: defined_before, 6: out_of_page, 8: filled_before}
    return [*of.get(fault.number, lambda *_: [])(line, fault)]


class Line:
    """The parts of a line: the names before a colon, and the words of its statement."""

    def __init__(self, text):
        self.code = text.partition(";")[0].strip().removeprefix("\ufeff")
        label, colon, rest = self.code.partition(":")
        self.label = label.strip() if colon else None
        self.statement = (rest if colon else self.code).strip()
        self.words = TOKEN.findall(self.statement)
        self.first = self.words[0].upper() if self.words else ""

    @property
    def operands(self):
        """What follows the first word, without blanks."""
        rest = self.statement[len(self.words[0]) :] if self.words else ""
        return "".join(rest.split())


def value(token):
    """The number that a token writes, or None."""
    if not NUMBER.fullmatch(token):
        return None
    if re.fullmatch("[01]+B", token, re.IGNORECASE):
        return int(token[:-1], 2)
    return int(token[:-1], 16) if token[-1] in "Hh" else int(token) if token.isdigit() else None


def form(operands):
    """Operands in the form of a table: Rr, @Ri, #value, address."""
    out = []
    for it in operands.upper().split(","):
        if re.fullmatch("R[0-7]", it):
            it = "Rr"
        elif re.fullmatch("@R[01]", it):
            it = "@Ri"
        elif it.startswith("#"):
            it = "#value"
        elif it not in RESERVED and it != "@A" and it:
            it = "address"
        out.append(it)
    return ",".join(out)


@lru_cache(maxsize=1)
def instructions():
    """Each instruction's first word with the forms of its operands, as the example with all of them has them."""
    found = {}
    for text in EXAMPLE.read_text(encoding="latin-1").splitlines():
        line = Line(text)
        if line.words and line.first not in ("ORG", "DB") and [it.upper() for it in line.words[1:2]] != ["EQU"]:
            found.setdefault(line.first, {})[form(line.operands.replace("LOW", ""))] = None
    return {word: [*forms] for word, forms in sorted(found.items())}


def defined(fault):
    """The names that the lines of the file define, each with its first line."""
    names = {}
    for number, text in enumerate(fault.lines, 1):
        line = Line(text)
        if line.label and NAME.fullmatch(line.label):
            names.setdefault(line.label.upper(), number)
        if [it.upper() for it in line.words[1:2]] == ["EQU"]:
            names.setdefault(line.first, number)
    return names


def spelling(line, _fault):
    code = line.code
    if re.search("['\"]", code):
        return ["a character in quotes isn't known: write its code, as in DB 041H for A"]
    if "$" in code:
        return ["$ for the present place isn't known: give the line a label and use that"]
    if found := re.search(r"\b0x([0-9a-f]+)\b", code, re.IGNORECASE):
        return [f"write 0{found[1].upper()}H: hexadecimal digits begin with a decimal digit and end with H"]
    if re.match(r"\s*\.\w", code):
        return ["the words ORG, DB and EQU have no dot"]
    if "=" in code:
        return ["a name gets its value by EQU, as in limit EQU 10"]
    if re.search(r"[#@]\s", code):
        return ["there is no blank after # or @"]
    if re.search(r"[-+*/()&|]", code):
        return ["expressions aren't known: write the value, or give it a name with EQU"]
    if line.label is not None and not NAME.fullmatch(line.label):
        why = "with at most 31 characters" if len(line.label) > 31 else "of letters, digits and _, which doesn't begin with a digit"
        return [f"a label is one name {why}"]
    for token in TOKEN.findall(code):
        token = token.lstrip("#@")
        if re.fullmatch("[0-9][0-9A-F]*", token, re.IGNORECASE) and value(token) is None:
            return [f"a hexadecimal number ends with H: 0{token.lstrip('0').upper()}H"]
        if len(token) > 31 and re.fullmatch(r"\w+", token):
            return ["a name has at most 31 characters"]
        if not token.isascii():
            return ["a character past ASCII may stand in a comment alone, after a ;"]
        if token and not re.fullmatch(r"[\w,:]+", token):
            return [f"the character {token[0]} may stand in a comment alone, after a ;"]
    return []


def first_word(line, fault):
    if line.first in OTHERS:
        return [OTHERS[line.first]]
    known = [*instructions(), "ORG", "DB"]
    if len(line.words) > 1 and line.words[1].upper() in known:
        return [f"a label ends with a colon: {line.words[0]}: {line.statement[len(line.words[0]) :].strip()}"]
    if len(line.words) == 1 and any(line.first in map(str.upper, TOKEN.findall(Line(it).statement)[1:]) for it in fault.lines):
        return [f"a label ends with a colon: {line.words[0]}:"]
    return meant(line.words[0] if line.words else "", known)


def operands(line, fault):
    if line.label is not None and [it.upper() for it in line.words[1:2]] == ["EQU"]:
        return ["EQU stands with its name alone: leave the label out"]
    if [it.upper() for it in line.words[1:2]] == ["EQU"]:
        return equated(line)
    if line.label and line.label.upper() in {*RESERVED, *instructions()}:
        return [f"{line.label} is a word of the assembler: choose another name"]
    if line.first == "ORG":
        return [RANGES["ORG"][1]]
    if line.first == "DB":
        return ["DB takes one or more values from 0 to 255 (0FFH), with a comma between two"]
    return fitting(line, fault)


def equated(line):
    if line.first in {*RESERVED, *instructions()}:
        return [f"{line.words[0]} is a word of the assembler: choose another name"]
    return ["EQU takes one number from 0 to 65,535"]


def fitting(line, _fault):
    """The operands fit no form of the word, or a number is too large for them."""
    forms = instructions().get(line.first, [])
    given = form(line.operands)
    if re.search(r"[#@]\s", line.statement):
        return ["there is no blank after # or @"]
    if given in forms:
        most, word = (255, "a value") if "#" in line.operands else (RANGES.get(line.first, (2047, None))[0], "an address")
        return [f"{word} of {line.first} is a number from 0 to {most:,} (0{most:X}H)"]
    tried = ",".join(line.words[1:])
    if "," not in line.operands and form(tried) in forms:
        return [f"a comma is missing: {line.first} {tried}"]
    with_mark = re.sub(r"(^|,)(?=[^,#@]*$)", r"\1#", line.operands)
    if form(with_mark) in forms and line.operands.rpartition(",")[2].upper() not in RESERVED:
        return [f"a value has # before it: {line.first} {with_mark}"]
    if not any(forms):
        return [f"{line.first} stands alone: it has no operands"]
    return [f"{line.first} takes {'; '.join(sorted(it for it in forms if it))}"]


def undefined(line, fault):
    names = defined(fault)
    for token in line.words[1:]:
        token = token.lstrip("#@")
        if not NAME.fullmatch(token) or token.upper() in names or token.upper() == "LOW":
            continue
        if re.fullmatch("[A-F][0-9A-F]*H", token, re.IGNORECASE):
            return [f"the name is {token}; a hexadecimal number begins with a decimal digit: 0{token.upper()}"]
        if token.upper() in RESERVED:
            # A register of a right operand is no name; as a value it is.
            if form(line.operands) in instructions().get(line.first, []) and line.first not in ("DB", "ORG"):
                continue
            return [f"{token} is a word of the assembler, and no value"]
        near = nearest(token, [it.strip() for it in names])
        if near:
            return [f"the name is {token}; did you mean {near.lower() if token.islower() else near}?"]
        if re.fullmatch("[A-F][0-9A-F]*", token, re.IGNORECASE):
            return [f"the name is {token}; as a hexadecimal number it is 0{token.upper()}H"]
        return [f"the name is {token}"]
    return []


def defined_before(line, fault):
    names = defined(fault)
    name = line.label if line.label and names.get(line.label.upper(), fault.at) < fault.at else line.words[0] if line.words else ""
    number = names.get(name.upper(), fault.at)
    return [f"line {number} defines {name}: {fault.lines[number - 1].strip()}"] if number < fault.at else []


def out_of_page(_line, _fault):
    return ["a jump on a condition and DJNZ reach only the 256 places that share the upper digit of their second byte; jump by JMP from there"]


def filled_before(_line, fault):
    for number in range(fault.at - 1, 0, -1):
        if Line(fault.lines[number - 1]).first == "ORG":
            return [f"line {number} set this place: {fault.lines[number - 1].strip()}"]
    return []
