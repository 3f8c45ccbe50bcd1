"""How the parts are drawn: the shape of each type, with its pins, and the place of each part. In millimetres; y goes down."""
from typing import Dict, Iterator, List, NamedTuple, Tuple

from tables import Key, Part, Pin, Type

GRID = 2.54
LEAD = 2 * GRID
SHEET = "A1"

Point = Tuple[float, float]
Line = Tuple[Point, ...]


class Shape(NamedTuple):
    """The lines of a type, each pin's outer end, and in which direction that end looks (-1 left, 1 right)."""
    lines: List[Line]
    ends: Dict[str, Point]
    sides: Dict[str, int]


class Placed(NamedTuple):
    """A part with its place on the sheet."""
    part: Part
    x: float
    y: float


def box(left: float, top: float, right: float, bottom: float) -> Line:
    """A rectangle."""
    return ((left, top), (right, top), (right, bottom), (left, bottom), (left, top))


_LEADS: List[Line] = [((-LEAD, 0), (-1.27, 0)), ((1.27, 0), (LEAD, 0))]
_DIODE: List[Line] = _LEADS + [((-1.27, -1.27), (-1.27, 1.27), (1.27, 0), (-1.27, -1.27))]
_BAR: Line = ((1.27, -1.27), (1.27, 1.27))
_PLATES: List[Line] = [((-LEAD, 0), (-0.6, 0)), ((0.6, 0), (LEAD, 0)), ((-0.6, -1.6), (-0.6, 1.6)), ((0.6, -1.6), (0.6, 1.6))]
# The shapes of two-pin parts, the first pin of which is at the left; but a diode's anode is at the left.
SHAPES: Dict[str, List[Line]] = {
    "resistor": [((-LEAD, 0), (-GRID, 0)), box(-GRID, -0.9, GRID, 0.9), ((GRID, 0), (LEAD, 0))],
    "fuse": [((-LEAD, 0), (LEAD, 0)), box(-GRID, -0.9, GRID, 0.9)],
    "capacitor": _PLATES,
    "electrolytic": _PLATES + [((-2.2, -1.2), (-1.2, -1.2)), ((-1.7, -1.7), (-1.7, -0.7))],
    "diode": _DIODE + [_BAR],
    "schottky": _DIODE + [((0.8, -0.8), (0.8, -1.27), (1.27, -1.27), (1.27, 1.27), (1.74, 1.27), (1.74, 0.8))],
    "led": _DIODE + [_BAR, ((0.3, -1.6), (1.3, -2.6)), ((1.1, -1.3), (2.1, -2.3))],
    "switch": [((-LEAD, 0), (-2, 0)), ((2, 0), (LEAD, 0)), ((-2, -1.2), (2, -1.2)), ((0, -1.2), (0, -2.2))],
    "crystal": [((-LEAD, 0), (-1.6, 0)), ((1.6, 0), (LEAD, 0)), ((-1.6, -1.3), (-1.6, 1.3)), ((1.6, -1.3), (1.6, 1.3)),
                box(-0.9, -1.6, 0.9, 1.6)],
}


def _two_pins(part_type: Type) -> Shape:
    first, second = part_type.pins if "A" not in part_type.pins else ("A", "K")
    return Shape(SHAPES[part_type.name], {first: (-LEAD, 0), second: (LEAD, 0)}, {first: -1, second: 1})


def _chip(pins: List[Pin]) -> Shape:
    """A box with the pins as on the part, seen from above: half of them down the left side, the rest up the right one."""
    high = (len(pins) + 1) // 2
    wide, top = 6 * GRID, -GRID * (high // 2)
    lines, ends, sides = [box(-wide, top - GRID, wide, top + GRID * high)], {}, {}
    for place, pin in enumerate(pins):
        side = -1 if place < high else 1
        y = top + GRID * (place if place < high else 2 * high - 1 - place)
        ends[pin.name], sides[pin.name] = (side * (wide + LEAD), y), side
        lines.append(((side * wide, y), (side * (wide + LEAD), y)))
    return Shape(lines, ends, sides)


def shape(part_type: Type) -> Shape:
    """The shape of a type."""
    return _two_pins(part_type) if part_type.name in SHAPES else _chip(list(part_type.pins.values()))


def _grid(parts: List[Part], x: float, y: float, step: Point, rows: int) -> Iterator[Placed]:
    """Parts below one another, and then in the next column."""
    for number, part in enumerate(parts):
        yield Placed(part, round(x + step[0] * (number // rows), 2), round(y + step[1] * (number % rows), 2))


def _blocks(parts: Dict[str, Part], blocks: Dict[str, List[str]]) -> Iterator[Placed]:
    """The parts of each block below one another, the blocks side by side."""
    x = 164 * GRID
    for references in blocks.values():
        y = 24 * GRID
        for reference in references:
            drawn = shape(parts[reference].type)
            high = max(4, len(drawn.ends) + 1 if parts[reference].type.name not in SHAPES else 0)
            yield Placed(parts[reference], round(x, 2), round(y + GRID * (high // 2 - 2), 2))
            y += GRID * high
        x += 62 * GRID if any(parts[reference].type.name not in SHAPES for reference in references) else 44 * GRID


def placed(parts: List[Part], keys: List[Key], blocks: Dict[str, List[str]]) -> List[Placed]:
    """The parts with their places: the chips above, the blocks beside them, what is in none below these, and the keys as a matrix."""
    by_reference = {part.reference: part for part in parts}
    grouped = {reference for references in blocks.values() for reference in references}
    in_matrix = {"%s%d" % (letter, number) for number in range(1, len(keys) + 1) for letter in ("SW", "D")}
    left = [part for part in parts if part.reference not in grouped | in_matrix]
    items = list(_grid([part for part in left if part.type.name not in SHAPES], 24 * GRID, 34 * GRID, (40 * GRID, 0), 1))
    items += _grid([part for part in left if part.type.name in SHAPES], 128 * GRID, 12 * GRID, (20 * GRID, 4 * GRID), 13)
    items += _blocks(by_reference, blocks)
    for number, key in enumerate(keys, 1):
        x, y = (16 + 17 * key.column) * GRID, (96 + 4 * key.row) * GRID
        items.append(Placed(by_reference["SW%d" % number], round(x, 2), round(y, 2)))
        items.append(Placed(by_reference["D%d" % number], round(x + 2 * LEAD, 2), round(y, 2)))
    return items


def ends(item: Placed) -> Dict[str, Point]:
    """Where the ends of a part's pins are on the sheet."""
    return {pin: (round(item.x + x, 2), round(item.y + y, 2)) for pin, (x, y) in shape(item.part.type).ends.items()}
