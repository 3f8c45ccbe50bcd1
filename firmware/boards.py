"""The table of a board, boards/NAME.txt: its chip, and which pin is what. And pins.h, which is made of it."""
import re
from dataclasses import dataclass, field
from pathlib import Path
from typing import Dict, List, Tuple

HERE = Path(__file__).resolve().parent
FOLDER = HERE / "boards"
ROWS, MOST_COLUMNS = 8, 12
SINGLE = ("clock", "data", "scroll", "num", "caps", "late")
FACTS = ("chip", "hal", "cpu", "archive", "clock_mhz", "flash", "ram", "code")
# The pins of each chip that a board may use: the port's letter ("" if there is one port) and the pin's number.
PINS = {
    "rp2040": (r"GP()(\d+)", {"": set(range(23)) | {25, 26, 27, 28}}),
    "stm32f1": (r"P([ABC])(\d+)", {"A": set(range(13)) | {15}, "B": set(range(16)) - {2}, "C": {13, 14, 15}}),
    "stm32f4": (r"P([ABC])(\d+)", {"A": set(range(13)) | {15}, "B": set(range(16)) - {2, 11}, "C": {13, 14, 15}}),
}


class Refused(Exception):
    """A file that can't be used, and why."""


@dataclass(frozen=True)
class Pin:
    """A pin: its name, its port's letter and its number there."""
    name: str
    port: str
    number: int


@dataclass
class Table:
    """A board: facts by their names, and the pins of rows, columns and single signals."""
    name: str
    path: Path
    facts: Dict[str, str] = field(default_factory=dict)
    rows: Dict[int, Pin] = field(default_factory=dict)
    columns: Dict[int, Pin] = field(default_factory=dict)
    single: Dict[str, Pin] = field(default_factory=dict)

    def range_of(self, fact: str) -> Tuple[int, int]:
        """Where a memory begins, and its size."""
        begin, size = self.facts[fact].split()
        return int(begin, 0), int(size, 0)


def _pin(table: Table, name: str, where: str) -> Pin:
    form, ports = PINS[table.facts["chip"]]
    found = re.fullmatch(form, name)
    if not found or int(found[2]) not in ports.get(found[1], ()):
        raise Refused("%s: %s has no pin %s for this" % (where, table.facts["chip"], name))
    return Pin(name, found[1], int(found[2]))


def _judge_row(table: Table, number: int, pin: Pin, where: str) -> None:
    first = table.rows.get(0, pin)
    if number != len(table.rows) or (pin.port, pin.number) != (first.port, first.number + number):
        raise Refused("%s: the rows are read at once, so row %d must follow row %d at the next pin" % (where, number, number - 1))


def _judge_port(what: str, pin: Pin, where: str) -> None:
    if pin.port and (pin.port == "C") != (what == "late"):
        raise Refused("%s: %s must be a pin of %s" % (where, what, "port C" if what == "late" else "port A or B"))


def _line(table: Table, words: List[str], where: str, taken: Dict[str, str]) -> None:
    """A line of the table."""
    what = words[0]
    if what in FACTS and len(words) in (2, 3) and what not in table.facts:
        table.facts[what] = " ".join(words[1:])
        if what == "chip" and words[1] not in PINS:
            raise Refused("%s: the chip is one of %s" % (where, ", ".join(PINS)))
        return
    numbered = what in ("row", "column") and len(words) == 3 and words[1].isdigit()
    if not numbered and not (what in SINGLE and len(words) == 2 and what not in table.single):
        raise Refused("%s: a line is a fact, `row N PIN`, `column N PIN`, or one of %s with its pin, each once"
                      % (where, ", ".join(SINGLE)))
    if "chip" not in table.facts:
        raise Refused("%s: the chip's line comes before the pins" % where)
    pin = _pin(table, words[-1], where)
    if pin.name in taken:
        raise Refused("%s: pin %s is named twice: it is %s" % (where, pin.name, taken[pin.name]))
    taken[pin.name] = " ".join(words[:-1])
    _judge_port(what, pin, where)
    if not numbered:
        table.single[what] = pin
    elif what == "row":
        _judge_row(table, int(words[1]), pin, where)
        table.rows[int(words[1])] = pin
    elif int(words[1]) != len(table.columns) or len(table.columns) == MOST_COLUMNS:
        raise Refused("%s: the columns are 0 to 11 at most, in their order" % where)
    else:
        table.columns[int(words[1])] = pin


def read_table(path: Path) -> Table:
    """The table of a file."""
    table = Table(path.stem, path)
    taken: Dict[str, str] = {}
    try:
        lines = path.read_text(encoding="ascii").splitlines()
    except (OSError, UnicodeDecodeError) as fault:
        raise Refused("%s can't be read: %s" % (path, fault)) from fault
    for number, line in enumerate(lines, 1):
        words = line.split("#")[0].split()
        if words:
            _line(table, words, "%s: line %d" % (path, number), taken)
    missing = [name for name in FACTS if name not in table.facts] + [name for name in SINGLE if name not in table.single]
    if missing or len(table.rows) != ROWS or not table.columns:
        raise Refused("%s: it has no %s" % (path, ", ".join(missing) or "%d rows and a column" % ROWS))
    return table


def read_board(name: str) -> Table:
    """The table of a board by its name."""
    path = FOLDER / (name + ".txt")
    if not re.fullmatch(r"\w+", name) or not path.is_file():
        raise Refused("no board is named %s; the boards are %s" % (name, ", ".join(sorted(it.stem for it in FOLDER.glob("*.txt")))))
    return read_table(path)


# --- pins.h ---

def _masks(pins: List[Pin], port: str) -> List[int]:
    return [1 << pin.number if pin.port == port else 0 for pin in pins]


def _list(masks: List[int]) -> str:
    return "{%s}" % ", ".join("0x%X" % mask for mask in masks)


def pins_h(table: Table) -> str:
    """pins.h: a mask for each signal, port by port, and lists of masks for columns and lights."""
    rows, columns = list(table.rows.values()), list(table.columns.values())
    lights = [table.single[name] for name in ("scroll", "num", "caps")]
    lines = ["/* Made of boards/%s.txt. */" % table.name, '#define BOARD_NAME "%s"' % table.name,
             "#define BOARD_CLOCK_MHZ %s" % table.facts["clock_mhz"], "#define ROW_0 %d" % rows[0].number]
    for port in ("",) if rows[0].port == "" else ("A", "B", "C"):
        end = "_" + port if port else ""
        named = {"ROWS": rows, "COLUMNS": columns, "LIGHTS": lights, "USED": rows + columns + list(table.single.values())}
        named.update({name.upper(): [pin] for name, pin in table.single.items()})
        lines += ["#define %s%s 0x%Xu" % (name, end, sum(_masks(pins, port))) for name, pins in named.items()]
        each = _masks(lights, port)
        lines.append("#define COLUMN%s %s" % (end, _list((_masks(columns, port) + 16 * [0])[:16])))
        lines.append("#define LIGHT%s %s" % (end, _list([sum(mask for bit, mask in enumerate(each) if lit >> bit & 1)
                                                         for lit in range(8)])))
    return "\n".join(lines) + "\n"
