"""What the lines of an assembler source define and fill, counted from its text. Nothing of this is proved: `asm` has the
last word, and `symbols` asks it."""

import re
from dataclasses import dataclass

NAME = r"[A-Z_][A-Z0-9_]*"
# The first words of instructions whose operand, an address, takes a second byte.
ADDRESSED = re.compile(r"(JMP|CALL|DJNZ|J(?!MPP)[A-Z0-9]+)$")


@dataclass
class Line:
    """A line of a source: its text, what it names by a label and by EQU (as written, or None), its statement, the place of
    the statement's first byte, and how many bytes it fills."""

    text: str
    label: str
    equ: tuple
    statement: str
    place: int
    bytes: int


def number(text):
    """The value of a number as sources write it."""
    if text.endswith("H"):
        return int(text[:-1], 16)
    if text.endswith("B"):
        return int(text[:-1], 2)
    return int(text)


def length(statement):
    """How many bytes a statement fills: one for each value of DB, and for an instruction one or two."""
    if statement.split()[0] == "DB":
        return statement.count(",") + 1
    return 2 if "#" in statement or ADDRESSED.match(re.match(NAME, statement).group()) else 1


def read_line(text, place):
    """A line, if the lines before it end at this place."""
    said = text.split(";")[0].strip()
    label = re.match("(" + NAME + r")[ \t]*:", said, re.IGNORECASE)
    statement = said[label.end():].strip() if label else said
    equ = re.match("(" + NAME + r")[ \t]+EQU[ \t]+(\w+)$", statement, re.IGNORECASE)
    upper = statement.upper()
    named = (equ.group(1), number(equ.group(2).upper())) if equ else None
    if upper.startswith("ORG"):
        return Line(text, label and label.group(1), named, statement, number(upper.split()[1]), 0)
    fills = 0 if equ or not upper else length(upper)
    return Line(text, label and label.group(1), named, statement, place, fills)


def read_source(source):
    """The lines of a source that `asm` takes."""
    place = 0
    for text in source.decode("latin-1").split("\n"):
        line = read_line(text, place)
        place = line.place + line.bytes
        yield line


def labels_of(lines):
    """The labels that lines define, as the lines spell them, with their places."""
    return ((line.label, line.place) for line in lines if line.label)


def names_of(lines):
    """The names that lines define, with their values, in the order of the lines."""
    for line in lines:
        if line.label:
            yield line.label, line.place
        if line.equ:
            yield line.equ
