"""The board's table and a layout as the scripts have them: parts, pins and nets."""
import re
import shlex
import sys
from dataclasses import dataclass, field
from pathlib import Path
from typing import Dict, List, NamedTuple, Set, Tuple

HERE = Path(__file__).resolve().parent
# What both have of a layout and of the pins of a board.
sys.path.insert(0, str(HERE.parent / "firmware"))
from boards import MOST_COLUMNS as COLUMNS, ROWS, Refused  # noqa: E402
from layouts import Key, keys_of  # noqa: E402

TABLE = HERE / "board.txt"
SAMPLE = HERE.parent / "examples" / "us84.toml"
# The same keys at the same places, for switches that need a debounce.
DEBOUNCED = SAMPLE.with_name("us84_debounced.toml")
KINDS = ("in", "out", "io", "oc", "power", "passive")


class Pin(NamedTuple):
    """A pin of a type."""
    number: str
    name: str
    kind: str


class Type(NamedTuple):
    """A type of part: KiCad's symbol and footprint, and its pins by name."""
    name: str
    symbol: str
    footprint: str
    pins: Dict[str, Pin]


@dataclass
class Part:
    """A part: the net of each pin that isn't open, by the pin's name."""
    reference: str
    type: Type
    value: str
    order: str
    nets: Dict[str, str] = field(default_factory=dict)


Node = Tuple[str, str]  # a part's reference and a pin's name
Nets = Dict[str, Set[Node]]


def _paragraphs(path: Path) -> List[Tuple[int, List[str]]]:
    """The words of each line with those of the indented lines under it, and the line's number."""
    paragraphs: List[Tuple[int, List[str]]] = []
    for number, line in enumerate(path.read_text(encoding="utf-8").splitlines(), 1):
        try:
            words = shlex.split(line, comments=True)
        except ValueError as fault:
            raise Refused("%s: line %d: %s" % (path.name, number, fault)) from fault
        if words and line[0] == " " and paragraphs:
            paragraphs[-1][1].extend(words)
        elif words:
            paragraphs.append((number, words))
    return paragraphs


def _type(words: List[str]) -> Type:
    name, symbol, footprint = words[:3]
    pins = [Pin(*word.split(":")) for word in words[3:]]
    if len({pin.name for pin in pins}) < len(pins) or len({pin.number for pin in pins}) < len(pins):
        raise ValueError("a pin stands twice")
    if any(pin.kind not in KINDS for pin in pins):
        raise ValueError("a pin's kind is one of " + ", ".join(KINDS))
    return Type(name, symbol, footprint, {pin.name: pin for pin in pins})


def _part(types: Dict[str, Type], reference: str, words: List[str]) -> Part:
    part = Part(reference, types[words[0]], words[1], words[2])
    for word in words[3:]:
        pin, net = word.split("=")
        if pin not in part.type.pins or pin in part.nets:
            raise ValueError("no pin %s, or it stands twice" % pin)
        part.nets[pin] = net
    return part


def _keys(types: Dict[str, Type], keys: List[Key], words: List[str]) -> List[Part]:
    parts = []
    for number, key in enumerate(keys, 1):
        between = "KEY%d" % number
        parts.append(_part(types, "SW%d" % number, [words[0], key.name, words[2], "1=ROW%d" % key.row, "2=" + between]))
        parts.append(_part(types, "D%d" % number, words[3:6] + ["A=" + between, "K=COL%d" % key.column]))
    return parts


def read_board(keys: List[Key], path: Path = TABLE) -> List[Part]:
    """The parts of the board with these keys, in the order of the table."""
    types: Dict[str, Type] = {}
    parts: List[Part] = []
    for number, (what, *words) in _paragraphs(path):
        try:
            if what == "type":
                types[words[0]] = _type(words)
            elif what == "part":
                parts.append(_part(types, words[0], words[1:]))
            elif what == "key":
                parts += _keys(types, keys, words)
            elif what != "block":
                raise ValueError("a line begins with type, part, key or block")
        except (ValueError, KeyError, IndexError, TypeError) as fault:
            raise Refused("%s: line %d: %s" % (path.name, number, fault)) from fault
    if len({part.reference for part in parts}) < len(parts):
        raise Refused("%s: a reference stands twice" % path.name)
    used = {"COL%d" % key.column for key in keys}
    for part in parts:
        part.nets = {pin: net for pin, net in part.nets.items() if net in used or not re.match(r"COL\d", net)}
    return parts


def read_blocks(path: Path = TABLE) -> Dict[str, List[str]]:
    """The blocks of a board: parts that are drawn together, with wires, under a title."""
    return {words[1]: words[2:] for _, words in _paragraphs(path) if words[0] == "block"}


def read_layout(path: Path) -> List[Key]:
    """The keys of a layout file, each at a place of the matrix."""
    keys = keys_of(path)
    for key in keys:
        if key.column >= COLUMNS or key.row >= ROWS:
            raise Refused("%s: %s is in no column of 0 to 11 and row of 0 to 7" % (path, key.name))
    return keys


def nets_of(parts: List[Part]) -> Nets:
    """The pins on each net."""
    nets: Nets = {}
    for part in parts:
        for pin, net in part.nets.items():
            nets.setdefault(net, set()).add((part.reference, pin))
    return nets
