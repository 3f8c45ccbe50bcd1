"""What must hold of the board's parts and nets. Each check gives its faults, a line each."""
import re
from functools import lru_cache
from pathlib import Path
from typing import Callable, Dict, Iterator, List, Optional, Set, Tuple

from kicad import KINDS, Tree, drawn_nets, flagged_nets, named, read_tree, supplied_nets, symbol_pins
from lists import matrix
from tables import HERE, Key, Node, Part, nets_of

SYMBOLS = Path("/usr/share/kicad/symbols")
FOOTPRINTS = Path("/usr/share/kicad/footprints")
DOCS = HERE.parent / "docs"
SUPPLY = ("+5V", "GND")
# The words of BOARD.md's tables of pins, and the net that they mean; {} is what the brackets match.
GOES = (
    (r"the clock wire$", "CLOCK"),
    (r"the data wire$", "DATA"),
    (r"the clock wire's buffer", "CLOCK_OUT"),
    (r"the data wire's buffer", "DATA_OUT"),
    (r"47 ohms to the (clock|data) wire", "PLUG_{}"),
    (r"ground", "GND"),
    (r"\+5 V", "+5V"),
    (r"row (\d)", "ROW{}"),
    (r"column (\d+)", "COL{}"),
    (r"decoder, input ([A-D])", "COL_{}"),
    (r"processor, (P1\.\d)", "{}"),
    (r"crystal", "XTAL{}"),
    (r"1 microfarad", "RESET"),
    (r"(Scroll|Num|Caps) Lock's buffer", "{}"),
    (r"(Scroll|Num|Caps) Lock's light", "LED_{}"),
    (r"open", None),
)
PARTS_ROW = re.compile(r"^\| ((?:[A-Z]+\d+(?: to [A-Z]+\d+)?(?:, )?)+) \| ([^|]+?) \| (\d+) \|", re.MULTILINE)


class Board:
    """The parts by their references, with the nets."""

    def __init__(self, parts: List[Part], keys: List[Key]):
        self.parts, self.keys = {part.reference: part for part in parts}, keys
        self.nets = nets_of(parts)
        # The nets that a diode joins, cathode first; what is pulled to ground doesn't count.
        self.diodes = [(part.nets.get("K"), part.nets.get("A")) for part in self.of_type("diode", "schottky")
                       if part.nets.get("K") != "GND"]

    def net(self, reference: str, pin: str) -> Optional[str]:
        """The net of a pin."""
        part = self.parts.get(reference)
        return part.nets.get(pin) if part else None

    def kind(self, node: Node) -> str:
        """The kind of a pin."""
        return self.parts[node[0]].type.pins[node[1]].kind

    def of_type(self, *names: str) -> Iterator[Part]:
        """The parts of some types."""
        return (part for part in self.parts.values() if part.type.name in names)

    def has(self, names: Tuple[str, ...], **nets: Optional[str]) -> bool:
        """Whether there is a part of some types with its pins on these nets: K and A, or first and second in either order."""
        wanted = set(nets.values())
        return None not in wanted and any(set(part.nets.values()) == wanted and ("K" not in nets or part.nets["K"] == nets["K"])
                                          for part in self.of_type(*names))


Faults = Iterator[str]


def electric(board: Board) -> Faults:
    """Inputs and supplies that are open, nets of one pin, outputs that fight, open collectors without a pull-up."""
    for part in board.parts.values():
        for pin in part.type.pins.values():
            if pin.kind in ("in", "power") and pin.name not in part.nets:
                yield "%s.%s is open" % (part.reference, pin.name)
    for net, nodes in board.nets.items():
        kinds = [board.kind(node) for node in nodes]
        if len(nodes) == 1:
            yield "net %s has one pin alone: %s.%s" % ((net,) + next(iter(nodes)))
        if kinds.count("out") > 1 or ("out" in kinds and "oc" in kinds) or ("out" in kinds and net in SUPPLY):
            yield "net %s has outputs that fight" % net
        if "oc" in kinds and not net.startswith("LED_") and not board.has(("resistor",), first="+5V", second=net):
            yield "net %s has an open collector and no pull-up" % net


def supplies(board: Board) -> Faults:
    """Each chip's supply, and a capacitor for each; polarities."""
    for part in board.parts.values():
        for pin in part.type.pins.values():
            want = "GND" if pin.name in ("VSS", "GND") else "+5V"
            if pin.kind == "power" and part.nets.get(pin.name) != want:
                yield "%s.%s isn't on %s" % (part.reference, pin.name, want)
    beside = sum(set(part.nets.values()) == set(SUPPLY) for part in board.of_type("capacitor"))
    if beside < 3:
        yield "%d capacitors between +5V and ground, not one beside each chip" % beside
    for part in board.of_type("electrolytic"):
        if part.nets.get("-") != "GND" or part.nets.get("+") == "GND":
            yield "%s is the wrong way round" % part.reference
    if not board.has(("electrolytic",), first="+5V", second="GND"):
        yield "no large capacitor between +5V and ground"


def processor(board: Board) -> Faults:
    """Reset, crystal, and the inputs that aren't used."""
    reset = board.net("U1", "RESET")
    if not board.has(("electrolytic",), first=reset, second="GND"):
        yield "RESET has no capacitor to ground"
    if not board.has(("diode",), K="+5V", A=reset):
        yield "RESET has no diode to +5V with its cathode there"
    if not board.has(("crystal",), first=board.net("U1", "XTAL1"), second=board.net("U1", "XTAL2")):
        yield "no crystal between XTAL1 and XTAL2"
    for pin in ("XTAL1", "XTAL2"):
        if not board.has(("capacitor",), first=board.net("U1", pin), second="GND"):
            yield "%s has no capacitor to ground" % pin
    if board.net("U1", "EA") != "GND":
        yield "EA isn't at ground: the program outside would run"
    for pin in ("SS", "INT") + tuple("DB%d" % row for row in range(8)):
        if not board.has(("resistor",), first="+5V", second=board.net("U1", pin)):
            yield "%s has no pull-up" % pin


def _low(board: Board, code: int, down: Optional[int]) -> Set[str]:
    """The nets that are low while port 1 selects a column and a key is down: what leads to the decoder's output through the
    key's switch, and through diodes from anode to cathode."""
    levels = {board.net("U1", "P1.%d" % bit): code >> bit & 1 for bit in range(4)}
    levels.update({"GND": 0, "+5V": 1})
    if any(levels.get(board.net("U2", pin)) != 0 for pin in ("G1", "G2")):
        return set()
    chosen = sum(levels.get(board.net("U2", pin), 1) << bit for bit, pin in enumerate("ABCD"))
    low = {board.net("U2", "Y%d" % chosen)} - {None}
    switch = set(board.parts["SW%d" % down].nets.values()) if down else set()
    while True:
        more = {anode for cathode, anode in board.diodes if cathode in low} | (switch if switch & low else set())
        if more <= low:
            return low
        low |= more


def matrix_works(board: Board) -> Faults:
    """For each column that port 1 may select and each key alone: which bus pins read 0."""
    for code in range(16):
        for number, key in [(0, None)] + list(enumerate(board.keys, 1)):
            low = _low(board, code, number or None)
            read = [row for row in range(8) if board.net("U1", "DB%d" % row) in low]
            want = [key.row] if key and key.column == code else []
            if read != want:
                yield "column %d with %s down: bus pins %s read 0, not %s" % (code, key.name if key else "nothing", read, want)


def _profile_pins() -> Dict[str, str]:
    """What PROFILE.md says of port 2, T0 and T1."""
    lines = [line for line in (DOCS / "PROFILE.md").read_text(encoding="utf-8").splitlines() if "P2.0" in line and "T0" in line]
    text = lines[0] if lines else ""
    wires = dict(re.findall(r"\b(P2\.[01]|T[01])\b(?:(?!\bP2|\bT[01]).)*?\b(clock|data)\b", text))
    lights = re.search(r"P2\.4, P2\.5,? (?:and )?P2\.6.*?(Scroll), (Num),? (?:and )?(Caps)", text)
    if len(wires) < 4 or not lights:
        raise ValueError("PROFILE.md doesn't say in one line what P2.0, P2.1, P2.4 to P2.6, T0 and T1 are")
    return {**wires, **dict(zip(("P2.4", "P2.5", "P2.6"), lights.groups()))}


def port_two_works(board: Board) -> Faults:
    """Port 2, T0 and T1 as PROFILE.md has them, through the buffers to plug and lights."""
    pins = _profile_pins()
    buffers = {board.net("U3", "%dA" % n): board.net("U3", "%dY" % n) for n in range(1, 7)}
    plug = {"clock": board.net("J1", "1"), "data": board.net("J1", "2")}
    for wire in ("clock", "data"):
        out, sense = (next(pin for pin, what in pins.items() if what == wire and pin[0] == letter) for letter in "PT")
        net = board.net("U1", sense)
        if net is None or buffers.get(board.net("U1", out)) != net:
            yield "%s's buffer doesn't pull the wire that %s senses" % (out, sense)
        if not board.has(("resistor",), first=plug[wire], second=net):
            yield "%s isn't on the plug's %s through a resistor" % (sense, wire)
        if not (board.has(("schottky",), K="+5V", A=net) and board.has(("schottky",), K=net, A="GND")):
            yield "the %s wire isn't clamped to both supplies" % wire
    for pin in ("P2.4", "P2.5", "P2.6"):
        cathode = buffers.get(board.net("U1", pin))
        lights = [part for part in board.of_type("led") if part.value == pins[pin] and part.nets.get("K") == cathode]
        if cathode is None or len(lights) != 1 or not board.has(("resistor",), first="+5V", second=lights[0].nets.get("A")):
            yield "%s doesn't light %s through its buffer and a resistor" % (pin, pins[pin])


# --- against the page ---

def _pin_tables(page: str) -> Dict[str, Dict[str, Tuple[str, str]]]:
    """The tables of pins by the reference at their head: of each pin its name and where it goes."""
    tables: Dict[str, Dict[str, Tuple[str, str]]] = {}
    reference = None
    for line in page.splitlines():
        cells = [cell.strip() for cell in line.strip("|").split("|")] if line.startswith("|") else []
        head = re.match(r"pin of (\w+)$", cells[0]) if cells else None
        if head:
            reference = head[1]
            tables[reference] = {}
        elif not cells:
            reference = None
        elif reference and not cells[0].startswith("---"):
            for number, name, goes in zip(cells[::3], cells[1::3], cells[2::3]):
                tables[reference][number] = (name, goes)
    return tables


def _meant(board: Board, name: str, goes: str) -> Tuple[bool, Optional[str]]:
    """Whether the words are known, and the net that they mean."""
    if re.match(r"\d+ k to \+5 V", goes):
        return True, name
    for pattern, net in GOES:
        found = re.match(pattern, goes)
        if found:
            word = found[1] if found.groups() else name[-1:]
            if word.startswith("P1."):
                return True, board.net("U1", word)
            return True, net and net.format(word if len(word) == 1 or word.isdigit() else word.upper())
    return False, None


def page_pins(board: Board, page: str) -> Faults:
    """BOARD.md's tables of pins, pin for pin."""
    tables = _pin_tables(page)
    for reference in ("U1", "U2", "U3", "J1"):
        pins = {pin.number: pin.name for pin in board.parts[reference].type.pins.values()}
        told = tables.get(reference, {})
        if set(told) != set(pins):
            yield "BOARD.md's table of %s doesn't have its pins: %s" % (reference, sorted(set(told) ^ set(pins)))
        for number, (name, goes) in told.items():
            known, net = _meant(board, name, goes)
            if reference != "J1" and pins.get(number) != name:
                yield "BOARD.md: pin %s of %s is %s, not %s" % (number, reference, pins.get(number), name)
            elif not known:
                yield "BOARD.md: pin %s of %s: no net is meant by '%s'" % (number, reference, goes)
            elif number in pins and board.net(reference, pins[number]) != net and not (
                    net and net.startswith("COL") and net not in board.nets):
                yield "%s.%s is on %s; BOARD.md says %s" % (reference, pins[number], board.net(reference, pins[number]), goes)


def page_parts(board: Board, page: str) -> Faults:
    """BOARD.md's table of parts: each part in one row, with the row's count and value."""
    left = dict(board.parts)
    for references, value, count in PARTS_ROW.findall(page):
        names: List[str] = []
        for first, last in re.findall(r"([A-Z]+\d+)(?: to ([A-Z]+\d+))?", references):
            letters, begin = re.match(r"([A-Z]+)(\d+)", first).groups()
            names += ["%s%d" % (letters, n) for n in range(int(begin), int((last or first)[len(letters):]) + 1)]
        if len(names) != int(count):
            yield "BOARD.md: %s are %d parts, not %s" % (references, len(names), count)
        for name in names:
            part = left.pop(name, None)
            if part is None:
                yield "BOARD.md: there is no %s, or it stands twice" % name
            elif part.type.name not in ("switch", "plug", "led") and not value.startswith(part.value):
                yield "BOARD.md: %s is %s, not %s" % (name, part.value, value)
    if left:
        yield "BOARD.md's table of parts has no %s" % ", ".join(sorted(left))


def page_matrix(board: Board, page: str) -> Faults:
    """BOARD.md's chart of the matrix."""
    if matrix(board.keys) not in page:
        yield "BOARD.md's chart isn't the layout's"


# --- against KiCad ---

def schematic_is(board: Board, text: str) -> Faults:
    """A schematic joins the pins that the table joins, leaves open what it leaves open, and says what is supplied."""
    numbers = {reference: part.type.pins for reference, part in board.parts.items()}
    drawn, opened = drawn_nets(text)
    want = {frozenset((reference, numbers[reference][pin].number) for reference, pin in nodes) for nodes in board.nets.values()}
    for nodes in want ^ {frozenset(nodes) for nodes in drawn.values()}:
        yield "the schematic joins otherwise: %s" % " ".join(sorted(map("/".join, nodes)))
    every = {(reference, pin.number) for reference, pins in numbers.items() for pin in pins.values()}
    if opened != every - {node for nodes in want for node in nodes}:
        yield "the schematic leaves other pins open"
    for net in sorted(supplied_nets(board.parts.values()) - flagged_nets(text)):
        yield "in the schematic no flag says that %s is supplied" % net


@lru_cache(maxsize=None)
def _library(name: str) -> Dict[str, Tree]:
    """The symbols of a library of KiCad's."""
    text = (SYMBOLS / (name + ".kicad_sym")).read_text(encoding="utf-8")
    return {tree[1]: tree for tree in named(read_tree(text), "symbol")}


def _kicad_symbol(name: str) -> Tree:
    """A symbol of KiCad's libraries; one that extends another has its pins."""
    library, symbol = name.split(":")
    symbols = _library(library)
    extends = named(symbols[symbol], "extends")
    return symbols[extends[0][1]] if extends else symbols[symbol]


def footprints_are(board: Board) -> Faults:
    """Each type's footprint is one of KiCad's, with a pad for each pin."""
    for part_type in {part.type.name: part.type for part in board.parts.values()}.values():
        folder, name = part_type.footprint.split(":")
        path = FOOTPRINTS / (folder + ".pretty") / (name + ".kicad_mod")
        pads = re.findall(r'\(pad "?(\w+)"? ', path.read_text(encoding="utf-8")) if path.is_file() else []
        if {pin.number for pin in part_type.pins.values()} - set(pads):
            yield "%s: KiCad's footprint %s has no such pads" % (part_type.name, part_type.footprint)


def like_kicad(board: Board) -> Faults:
    """Each type's pins as KiCad's symbol has them: numbers, kinds, and names where KiCad gives any."""
    other = {"Y": "S", "G1": "E0", "G2": "E1", "A": "A0", "B": "A1", "C": "A2", "D": "A3", "VSS": "GND", "VDD": "VPPVDD",
             "XTAL1": "X1", "XTAL2": "X2"}
    for part_type in {part.type.name: part.type for part in board.parts.values()}.values():
        pins = symbol_pins(_kicad_symbol(part_type.symbol))
        if set(pins) != {pin.number for pin in part_type.pins.values()}:
            yield "%s: KiCad has pins %s" % (part_type.name, sorted(pins))
            continue
        for pin in part_type.pins.values():
            kind, name = pins[pin.number][1], re.sub(r"[^A-Z0-9]", "", named(pins[pin.number], "name")[0][1].upper())
            ours = re.sub(r"[^A-Z0-9]", "", pin.name)
            if kind != KINDS[pin.kind]:
                yield "%s pin %s is %s in KiCad" % (part_type.name, pin.number, kind)
            if len(part_type.pins) > 2 and name and name not in (ours, other.get(ours), "S" + ours[1:]):
                yield "%s pin %s is %s in KiCad, not %s" % (part_type.name, pin.number, name, pin.name)


CHECKS: Tuple[Callable[[Board], Faults], ...] = (electric, supplies, processor, matrix_works, port_two_works)
PAGE_CHECKS: Tuple[Callable[[Board, str], Faults], ...] = (page_pins, page_parts, page_matrix)


def faults(board: Board, page: str, is_sample: bool = True) -> List[str]:
    """All faults of a board, and of the page about it. The page has the parts and the chart of the sample layout alone."""
    on_page = PAGE_CHECKS if is_sample else PAGE_CHECKS[:1]
    return [fault for check in CHECKS for fault in check(board)] + [fault for check in on_page for fault in check(board, page)]
