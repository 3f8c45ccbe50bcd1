"""What must hold of the board with a Pico. Each check gives its faults, a line each."""
import re
from typing import Callable, Dict, Iterator, List, Set, Tuple

from checks import Board, Faults, electric, page_parts
from tables import Part
# tables has put the folder firmware/ on the path.
from boards import Table, read_board as read_pins

SUPPLY = ("+5V", "GND")
GOES = {"ground": "GND", "open": None, "+3.3 V": "+3V3", "+5 V by D109": "VSYS", "the clock's transistor": "CLOCK_3V",
        "data's transistor": "DATA_3V", "Scroll Lock's light": "SCROLL", "Num Lock's light": "NUM", "Caps Lock's light": "CAPS"}


def supplies(board: Board) -> Faults:
    """Ground, the fuse, the diode to VSYS, capacitors, the shield."""
    for pin in board.parts["U1"].type.pins.values():
        if pin.kind == "power" and board.net("U1", pin.name) != ("VSYS" if pin.name == "VSYS" else "GND"):
            yield "U1.%s is on %s" % (pin.name, board.net("U1", pin.name))
    if board.net("U1", "3V3") != "+3V3" or board.net("U1", "VBUS"):
        yield "U1's 3V3 isn't +3V3, or VBUS isn't open"
    if not board.has(("fuse",), first=board.net("J1", "5"), second="+5V") or board.net("J1", "5") == "+5V":
        yield "no fuse between plug and +5V"
    if not board.has(("schottky",), K="VSYS", A="+5V"):
        yield "no diode from +5V to VSYS"
    if not board.has(("electrolytic",), first="+5V", second="GND") or board.net("C2", "-") != "GND":
        yield "no large capacitor between +5V and ground, or the wrong way round"
    if board.net("J1", "4") != "GND" or board.net("J2", "1") != "GND":
        yield "plug or shield isn't at ground"


def pins_are(board: Board, pins: Table) -> Faults:
    """The Pico's pins have the nets of firmware/boards/pico.txt."""
    wanted = {pin.name: "ROW%d" % row for row, pin in pins.rows.items()}
    wanted.update({pin.name: "COL%d" % column for column, pin in pins.columns.items()})
    wanted.update({pins.single[name].name: net for name, net in (
        ("clock", "CLOCK_3V"), ("data", "DATA_3V"), ("scroll", "SCROLL"), ("num", "NUM"), ("caps", "CAPS"))})
    for name, net in wanted.items():
        if board.net("U1", name) not in ((net, None) if net.startswith("COL") else (net,)):
            yield "U1.%s is on %s; pico.txt says %s" % (name, board.net("U1", name), net)
    for name, pin in pins.single.items():
        if name == "late" and pin.name in {it.name for it in board.parts["U1"].type.pins.values()}:
            yield "the light that shows lateness is at a pin of the board"


def _low(board: Board, column: str, down: int) -> Set[str]:
    """The nets that are low while a column is pulled and a key is down: through its switch, and diodes from anode to cathode."""
    low = {column}
    switch = set(board.parts["SW%d" % down].nets.values()) if down else set()
    while True:
        more = {anode for cathode, anode in board.diodes if cathode in low} | (switch if switch & low else set())
        if more <= low:
            return low
        low |= more


def matrix_works(board: Board, pins: Table) -> Faults:
    """Each row has a pull-up; a key pulls its row in its column, and none in another."""
    for row in pins.rows:
        if not board.has(("resistor",), first="+3V3", second="ROW%d" % row):
            yield "row %d has no pull-up" % row
    for number, key in enumerate(board.keys, 1):
        for column in pins.columns:
            rows = {net for net in _low(board, "COL%d" % column, number) if net and net.startswith("ROW")}
            if rows != ({"ROW%d" % key.row} if column == key.column else set()):
                yield "%s pulls %s in column %d" % (key.name, sorted(rows) or "no row", column)


def wires_work(board: Board, pins: Table) -> Faults:
    """Each wire: a transistor between 3.3 V and 5 V, with a pull-up at each side; resistor and clamps; and the lights."""
    for number, wire in (("1", "CLOCK"), ("2", "DATA")):
        shifter = {"G": "+3V3", "S": wire + "_3V", "D": wire}
        if not any(part.nets == shifter for part in board.of_type("bss138")):
            yield "no transistor has its gate at 3.3 V, its source at the Pico and its drain at the %s wire" % wire.lower()
        for supply, net in (("+3V3", wire + "_3V"), ("+5V", wire)):
            if not board.has(("resistor",), first=supply, second=net):
                yield "%s has no pull-up to %s" % (net, supply)
        if not board.has(("resistor",), first=board.net("J1", number), second=wire):
            yield "the plug's pin %s isn't on the %s wire through a resistor" % (number, wire.lower())
        if not (board.has(("schottky",), K="+5V", A=wire) and board.has(("schottky",), K=wire, A="GND")):
            yield "the %s wire isn't clamped to both supplies" % wire.lower()
    for name in ("Scroll", "Num", "Caps"):
        lights = [part for part in board.of_type("led") if part.value == name and part.nets.get("K") == "GND"]
        if len(lights) != 1 or not board.has(("resistor",), first=name.upper(), second=lights[0].nets.get("A")):
            yield "%s's light isn't between a resistor at its pin and ground" % name


def page_pins(board: Board, page: str) -> Faults:
    """BOARD.md's table of the Pico's pins."""
    told: Dict[str, Tuple[str, str]] = {}
    rows = page[page.index("| pin of Pico |"):].split("\n\n")[0].splitlines()[2:]
    for line in rows:
        cells = [cell.strip() for cell in line.strip("|").split("|")]
        told.update({number: (name, goes) for number, name, goes in zip(cells[::3], cells[1::3], cells[2::3])})
    pins = {pin.number: pin.name for pin in board.parts["U1"].type.pins.values()}
    if {number: name for number, (name, _) in told.items()} != pins:
        yield "BOARD.md's table of the Pico doesn't have its pins"
    for name, goes in told.values():
        found = re.match(r"(row|column) (\d+)$", goes)
        net = {"row": "ROW", "column": "COL"}[found[1]] + found[2] if found else GOES.get(goes, "'%s'" % goes)
        if board.net("U1", name) != net and not (found and found[1] == "column" and net not in board.nets):
            yield "U1.%s is on %s; BOARD.md says %s" % (name, board.net("U1", name), goes)


def faults(board: Board, page: str, is_sample: bool = True) -> List[str]:
    """All faults of a board with a Pico, and of the page about it."""
    pins = read_pins("pico")
    found: List[str] = [fault for fault in electric(board)] + list(supplies(board))
    for check in (pins_are, matrix_works, wires_work):
        found += check(board, pins)
    return found + list(page_pins(board, page)) + (list(page_parts(board, page)) if is_sample else [])


# --- planted faults ---

def _net(reference: str, pin: str, net: str) -> Callable[[Dict[str, Part]], None]:
    return lambda parts: parts[reference].nets.update({pin: net})


def _without(reference: str) -> Callable[[Dict[str, Part]], None]:
    return lambda parts: parts.pop(reference) and None


def _turned(reference: str, first: str, second: str) -> Callable[[Dict[str, Part]], None]:
    def plant(parts: Dict[str, Part]) -> None:
        nets = parts[reference].nets
        nets[first], nets[second] = nets[second], nets[first]
    return plant


PLANTED: Tuple[Tuple[str, Callable[[Dict[str, Part]], None]], ...] = (
    ("two rows swapped", _turned("U1", "GP2", "GP3")), ("two columns swapped", _turned("U1", "GP10", "GP11")),
    ("clock and data swapped at the Pico", _turned("U1", "GP20", "GP21")), ("a light at another pin", _turned("U1", "GP22", "GP26")),
    ("a transistor turned round", _turned("Q1", "S", "D")), ("a gate at 5 V", _net("Q2", "G", "+5V")),
    ("no pull-up at 3.3 V", _without("R9")), ("no pull-up at 5 V", _without("R12")), ("a row without its pull-up", _without("R4")),
    ("a key's diode turned round", _turned("D5", "A", "K")), ("a key's diode bridged", _net("SW20", "2", "COL2")),
    ("no fuse", _net("J1", "5", "+5V")), ("no diode to VSYS", _net("U1", "VSYS", "+5V")), ("that diode turned round", _turned("D109", "A", "K")),
    ("a clamp turned round", _turned("D106", "A", "K")), ("no series resistor", _net("J1", "2", "DATA")),
    ("an LED turned round", _turned("D102", "A", "K")), ("the shield isn't joined", _net("J2", "1", "SHIELD")),
    ("a ground is open", lambda parts: parts["U1"].nets.pop("GND18") and None), ("the large capacitor turned round", _turned("C2", "+", "-")),
)
PAGE_FAULTS = (
    ("| 1 | GP0 | row 0 |", "| 1 | GP0 | row 1 |"), ("| 27 | GP21 | data's transistor |", "| 27 | GP21 | the clock's transistor |"),
    ("| 40 | VBUS | open |", "| 40 | VBUS | +3.3 V |"), ("| R1 to R8 | 47 k | 8 |", "| R1 to R8 | 10 k | 8 |"),
    ("| Q1, Q2 | BSS138 | 2 |", "| Q1 | BSS138 | 1 |"),
)


def self_test(fresh: Callable[[], Board], page: str) -> Iterator[str]:
    """What of the planted faults isn't found, and what is found where there is none."""
    yield from ("Pico: without a fault: %s" % fault for fault in faults(fresh(), page))
    for told, plant in PLANTED:
        board = fresh()
        plant(board.parts)
        if not faults(Board(list(board.parts.values()), board.keys), page):
            yield "Pico: not found: " + told
    for before, after in PAGE_FAULTS:
        if page.count(before) != 1 or not faults(fresh(), page.replace(before, after)):
            yield "Pico: not found: BOARD.md says '%s' for '%s'" % (after, before)
