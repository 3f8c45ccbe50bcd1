"""A fault that the program has found, in words: which file and line it is, what is wrong, and what would be right.

The program's own line has the last word; nothing here is proved. `docs/faults.tsv` has a sentence for each fault, and the
module of a kind of file looks at the faulty line for the mistake that people make there. It says nothing if it isn't sure.
"""
from __future__ import annotations

import re
from dataclasses import dataclass, field
from functools import cached_property
from pathlib import Path

from . import asm, cert, hexfile, keys, kinds, layout, script, typed, vcd

KINDS = {"asm": asm, "cert": cert, "hex": hexfile, "keys": keys, "layout": layout, "script": script, "text": typed, "vcd": vcd}
# The most bytes that a file of each kind may have.
LIMITS = {"hex": 16384, "asm": 262144, "layout": 65536, "keys": 4194304, "script": 65536, "cert": 65536, "text": 10000, "vcd": 4294967294}
# The kinds of the files that a command names, in the order of its words.
FILES = {
    "step": ["hex"],
    "list": ["hex"],
    "asm": ["asm"],
    "compile": ["layout"],
    "run": ["layout", "keys"],
    "expect": ["layout", "keys"],
    "trace": ["layout", "keys"],
    "debug": ["layout", "keys", "script"],
    "board": ["hex", "layout", "keys"],
    "probe": ["hex", "layout", "keys", "script"],
    "cert": ["hex", "cert"],
    "type": ["layout", "text"],
    "capture": ["vcd"],
    "capture --keys": ["layout", "vcd"],
}
TABLE = Path(__file__).resolve().parent.parent.parent / "docs/faults.tsv"
SAID = re.compile(
    r"input: (?P<kind>\w+) (?:line|entry|byte) (?P<at>\d+) fault (?P<number>\d+)"
    r"|timing: line (?P<line>\d+) fault (?P<late>\d+) stamps (?P<first>\d+) (?P<second>\d+)"
    r"|input: (?P<long>\w+) too long"
)


@dataclass
class Fault:
    """A fault as the program has named it, with the bytes of the files that are before it in the words, by their kinds."""

    kind: str
    number: int
    at: int
    stamps: tuple[int, int] = (0, 0)
    files: dict[str, bytes] = field(default_factory=dict)

    @property
    def data(self):
        return self.files[self.kind]

    @cached_property
    def lines(self):
        """The lines of the file, as the program splits it."""
        return [it.removesuffix(b"\r").decode(errors="replace") for it in self.data.split(b"\n")]

    @property
    def text(self):
        """The faulty line; empty if the file has none with this number."""
        return self.lines[self.at - 1] if 0 < self.at <= len(self.lines) else ""


def named(words):
    """The files that the words of a call name, by their kinds, in their order. An option may be the command's second word."""
    for command in (" ".join(words[:2]), words[0]):
        if command in FILES:
            return dict(zip(FILES[command], words[len(command.split()) :]))
    return {}


def table():
    """What `docs/faults.tsv` says of each kind and number: the rule, and the sentence in words."""
    rows = (line.split("\t") for line in TABLE.read_text(encoding="utf-8").splitlines()[1:])
    return {(kind, int(number)): (rule, words) for kind, number, rule, words in rows}


def shown(text):
    """A line as it is shown: not longer than a screen, and nothing in it that would move the cursor."""
    text = "".join(it if it.isprintable() or it == " " else " " if it == "\t" else f"\\x{ord(it):02X}" for it in text.strip())
    return text if len(text) <= 100 else text[:97] + "..."


def explained(said, words):
    """The lines that explain what the program said of a call with these words; none if it said something else."""
    found = SAID.fullmatch(said.strip())
    if not found:
        return []
    names = named(words)
    kind = found["kind"] or found["long"] or "keys"
    kind = "layout" if said.startswith("input: layout") else kind
    if kind not in names:
        return []
    if found["long"]:
        return [f"{names[kind]} has more than {LIMITS[kind]:,} bytes, the most that such a file may have"]
    files = {it: Path(name).read_bytes() for it, name in names.items() if Path(name).is_file()}
    if kind not in files:
        return []
    stamps = (int(found["first"] or 0), int(found["second"] or 0))
    fault = Fault(kind, int(found["number"] or found["late"]), int(found["at"] or found["line"]), stamps, files)
    place, text = KINDS[kind].place(fault) if hasattr(KINDS[kind], "place") else (f"line {fault.at}", fault.text)
    head = f"{names[kind]}, {place}: {shown(text)}" if text else f"{names[kind]}, {place}"
    return [head, table()[kind, fault.number][1], *(mark(fault) or of_another_kind(fault, names, words) or guessed(fault))]


def guessed(fault):
    """What is probably meant. A file of any bytes may have misled the guess; then there is none."""
    try:
        return KINDS[fault.kind].hints(fault)
    except (ValueError, LookupError, TypeError, RecursionError, OSError):
        return []


# Faults that files of other kinds have: those of a line's form. An empty file has no kind.
STRANGE = {"hex": {1}, "asm": {1, 2, 3}, "layout": {1, 2, 3}, "keys": {1, 2}, "script": {1}, "cert": {1}, "text": {1}, "vcd": {1, 10}}


def of_another_kind(fault, names, words):
    """What a file is that isn't of the kind that comes in its place, and what takes it; nothing if it is of that kind. Two files
    that are exchanged are said to be."""
    found = kinds.of_bytes(fault.data) if fault.number in STRANGE[fault.kind] else None
    if not found or found["kind"] == fault.kind or (found["kind"] == "asm" and fault.kind == "text"):
        return []
    lines = [kinds.said(found, names[fault.kind])]
    other = names.get(found["kind"])
    if other and (kinds.of_file(other) or {}).get("kind") == fault.kind:
        exchanged = {names[fault.kind]: other, other: names[fault.kind]}
        lines.append(f"the two files are exchanged: kbd48 {' '.join(exchanged.get(it, it) for it in words)}")
    return lines


def mark(fault):
    """A byte order mark, which a layout alone may begin with."""
    if fault.kind != "layout" and fault.at == 1 and fault.data.startswith(b"\xef\xbb\xbf"):
        return ["the file begins with a byte order mark (EF BB BF): save it as UTF-8 without one"]
    return []
