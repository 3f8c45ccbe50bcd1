"""The wires that are drawn: the lines of the matrix, and trunks within a block of parts. In millimetres; y goes down."""
from typing import Dict, List, NamedTuple, Set, Tuple

from drawing import GRID, LEAD, Placed, Point, ends, shape
from tables import Key, Node

Wire = Tuple[Point, Point]


class Routes(NamedTuple):
    """Wires, which touch at their ends alone; dots, with which three or more touch; labels with the side to which they look; and the
    pins that need no label of their own."""
    wires: List[Wire]
    dots: List[Point]
    labels: List[Tuple[str, Point, int]]
    joined: Set[Node]


def _at(x: float, y: float) -> Point:
    return round(x, 2), round(y, 2)


def _line(routes: Routes, net: str, label: Point, side: int, taps: List[Tuple[Point, Point, Node]]) -> None:
    """A straight line from its label on, past the places at which pins are joined to it."""
    last = label
    for place, end, node in sorted(taps, key=lambda tap: (abs(tap[0][0] - label[0]), abs(tap[0][1] - label[1]))):
        routes.wires.append((last, place))
        if end != place:
            routes.wires.append((place, end))
        if place != last and (place, end, node) != taps[-1]:
            routes.dots.append(place)
        routes.joined.add(node)
        last = place
    routes.labels.append((net, label, side))


def _matrix(routes: Routes, items: Dict[str, Placed], keys: List[Key]) -> None:
    """A line above each row's keys, and one to the right of each column's."""
    rows: Dict[int, List[Tuple[Point, Point, Node]]] = {}
    columns: Dict[int, List[Tuple[Point, Point, Node]]] = {}
    for number, key in enumerate(keys, 1):
        switch, diode = items["SW%d" % number], items["D%d" % number]
        x, y = ends(switch)["1"]
        rows.setdefault(key.row, []).append((_at(x, y - 2 * GRID), (x, y), ("SW%d" % number, "1")))
        x, y = ends(diode)["K"]
        columns.setdefault(key.column, []).append((_at(x + GRID, y), (x, y), ("D%d" % number, "K")))
    left, top = min(tap[0][0] for taps in rows.values() for tap in taps), min(tap[0][1] for taps in columns.values() for tap in taps)
    for row, taps in rows.items():
        _line(routes, "ROW%d" % row, _at(left - 2 * GRID, taps[0][0][1]), -1, sorted(taps))
    for column, taps in columns.items():
        _line(routes, "COL%d" % column, _at(taps[0][0][0], top - 4 * GRID), 1, sorted(taps, key=lambda tap: tap[0][1]))


def _block(routes: Routes, items: List[Placed]) -> None:
    """Of each net with two pins or more at one side of a block, a trunk beside the block; its label is above the parts."""
    top = min(y for item in items for _, y in ends(item).values())
    for side in (-1, 1):
        nets: Dict[str, List[Tuple[Point, Node]]] = {}
        for item in items:
            for pin, place in ends(item).items():
                if pin in item.part.nets and shape(item.part.type).sides[pin] == side:
                    nets.setdefault(item.part.nets[pin], []).append((place, (item.part.reference, pin)))
        outer = max(side * place[0] for taps in nets.values() for place, _ in taps)
        for number, (net, taps) in enumerate((net, taps) for net, taps in nets.items() if len(taps) > 1):
            x = side * (outer + GRID * (2 + 2 * number))
            _line(routes, net, _at(x, top - GRID * (2 + 2 * number)), side,
                  [(_at(x, place[1]), place, node) for place, node in sorted(taps, key=lambda tap: tap[0][1])])


def routed(items: List[Placed], keys: List[Key], blocks: Dict[str, List[str]]) -> Routes:
    """The wires of a board."""
    routes = Routes([], [], [], set())
    by_reference = {item.part.reference: item for item in items}
    _matrix(routes, by_reference, keys)
    for references in blocks.values():
        _block(routes, [by_reference[reference] for reference in references])
    return routes


def titles(items: List[Placed], blocks: Dict[str, List[str]]) -> List[Tuple[str, Point]]:
    """The titles of the blocks, above them."""
    by_reference = {item.part.reference: item for item in items}
    found = []
    for title, references in blocks.items():
        first = by_reference[references[0]]
        found.append((title, _at(first.x, min(y for _, y in ends(first).values()) - 16 * GRID)))
    return found
