"""KiCad's schematic (of version 6) and netlist of the board, and what a schematic says of its nets."""
import re
import uuid
from typing import Any, Dict, Iterable, List, Set, Tuple

from drawing import SHEET, Line, Placed, Point, Shape, ends, placed, shape
from routes import Routes, routed, titles
from tables import Key, Nets, Node, Part, Type, nets_of

KINDS = {"in": "input", "out": "output", "io": "bidirectional", "oc": "open_collector", "power": "power_in",
         "passive": "passive"}
SPACE = uuid.UUID("6b626434-3800-4000-8000-000000000000")
LIBRARY = "kbd48"
SMALL = "(effects (font (size 1 1)))"
HIDDEN = "(effects (font (size 1 1)) hide)"


def _id(*words: object) -> str:
    """A name for a thing, the same in each run."""
    return str(uuid.uuid5(SPACE, " ".join(map(str, words))))


def _polyline(line: Line) -> str:
    points = " ".join("(xy %g %g)" % (x, -y) for x, y in line)
    return "(polyline (pts %s) (stroke (width 0.15) (type default) (color 0 0 0 0)) (fill (type none)))" % points


def _symbol(part_type: Type, drawn: Shape) -> str:
    """A type's symbol. A lead is part of its pin."""
    tips = set(drawn.ends.values())
    bodies = [_polyline(line) for line in drawn.lines if not (len(line) == 2 and tips & set(line))]
    leads = {tip: line for line in drawn.lines if len(line) == 2 for tip in line if tip in tips}
    pins = []
    for pin in part_type.pins.values():
        (x, y), side = drawn.ends[pin.name], drawn.sides[pin.name]
        length = abs(leads[x, y][0][0] - leads[x, y][1][0])
        pins.append('(pin %s line (at %g %g %d) (length %g) (name "%s" %s) (number "%s" %s))' % (
            KINDS[pin.kind], x, -y, 0 if side < 0 else 180, length, pin.name, SMALL, pin.number, SMALL))
    names = "(pin_numbers hide) (pin_names (offset 0) hide)" if len(part_type.pins) == 2 else "(pin_names (offset 0.5))"
    return '(symbol "%s" %s (in_bom yes) (on_board yes)\n  %s\n  (symbol "%s_1_1"\n   %s))' % (
        part_type.name, names, _properties("U", part_type.name, "", "", 0, 0), part_type.name, "\n   ".join(bodies + pins))


def _properties(reference: str, value: str, footprint: str, order: str, x: float, y: float, above: float = 2.54) -> str:
    fields = [("Reference", reference, y - above, SMALL), ("Value", value, y + above, SMALL),
              ("Footprint", footprint, y, HIDDEN), ("Datasheet", "", y, HIDDEN)] + [("Order", order, y, HIDDEN)] * bool(order)
    return "\n  ".join('(property "%s" "%s" (id %d) (at %g %g 0) %s)' % (name, text, number, x, at, effects)
                       for number, (name, text, at, effects) in enumerate(fields))


FLAG = ('(symbol "flag" (power) (pin_numbers hide) (pin_names (offset 0) hide) (in_bom no) (on_board no)\n  %s\n'
        '  (symbol "flag_1_1"\n   (pin power_out line (at 0 0 90) (length 2.54) (name "flag" %s) (number "1" %s))))')


def _label(net: str, x: float, y: float, side: int) -> str:
    angle, justify = (180, "right") if side < 0 else (0, "left")
    return '(global_label "%s" (shape passive) (at %g %g %d) (effects (font (size 1 1)) (justify %s)) (uuid %s))' % (
        net, x, y, angle, justify, _id("label", x, y))


def _drawn_wires(routes: Routes) -> List[str]:
    """Wires, dots and labels."""
    lines = ['(wire (pts (xy %g %g) (xy %g %g)) (stroke (width 0) (type default) (color 0 0 0 0)) (uuid %s))' % (
        *begin, *end, _id("wire", *begin, *end)) for begin, end in routes.wires]
    lines += ['(junction (at %g %g) (diameter 0) (color 0 0 0 0) (uuid %s))' % (*at, _id("dot", *at)) for at in routes.dots]
    return lines + [_label(net, *at, side) for net, at, side in routes.labels]


def _title(title: str, at: Point) -> str:
    return '(text "%s" (at %g %g 0) (effects (font (size 2.5 2.5))) (uuid %s))' % (title, *at, _id("title", title))


def _instance(item: Placed, joined: Set[Node]) -> List[str]:
    part, drawn = item.part, shape(item.part.type)
    above = 2.54 if len(part.type.pins) == 2 else max(abs(y) for line in drawn.lines for _, y in line) + 2.54
    pins = " ".join('(pin "%s" (uuid %s))' % (pin.number, _id(part.reference, pin.number)) for pin in part.type.pins.values())
    lines = ['(symbol (lib_id "%s:%s") (at %g %g 0) (unit 1) (in_bom yes) (on_board yes) (uuid %s)\n  %s\n  %s)' % (
        LIBRARY, part.type.name, item.x, item.y, _id(part.reference),
        _properties(part.reference, part.value, part.type.footprint, part.order, item.x, item.y, above), pins)]
    for pin, (x, y) in ends(item).items():
        if pin not in part.nets:
            lines.append("(no_connect (at %g %g) (uuid %s))" % (x, y, _id("open", x, y)))
        elif (part.reference, pin) not in joined and not part.nets[pin].startswith("KEY"):  # a key's switch and diode touch
            lines.append(_label(part.nets[pin], x, y, drawn.sides[pin]))
    return lines


def supplied_nets(parts: Iterable[Part]) -> Set[str]:
    """The nets with a supply's pin."""
    return {net for part in parts for pin, net in part.nets.items() if part.type.pins[pin].kind == "power"}


def _flags(parts: List[Part]) -> Tuple[List[str], List[str]]:
    """KiCad wants to know that each net with a supply's pin is supplied: all are from the plug, one by a diode."""
    body, paths = [], []
    for number, net in enumerate(sorted(supplied_nets(parts)), 1):
        x, y, name = 25.4 * number, 25.4, "#FLG%d" % number
        body.append('(symbol (lib_id "%s:flag") (at %g %g 0) (unit 1) (in_bom no) (on_board no) (uuid %s)\n'
                    '  %s (pin "1" (uuid %s)))' % (
            LIBRARY, x, y, _id(name), _properties(name, "flag", "", "", x, y), _id(name, 1)))
        body.append(_label(net, x, y, 1))
        paths.append('(path "/%s" (reference "%s") (unit 1) (value "flag") (footprint ""))' % (_id(name), name))
    return body, paths


def _symbols(parts: List[Part]) -> List[str]:
    """The symbols of the types, and of the flag."""
    types = {part.type.name: part.type for part in parts}
    return [_symbol(part_type, shape(part_type)) for part_type in types.values()] + [
        FLAG % (_properties("#FLG", "flag", "", "", 0, 0), SMALL, SMALL)]


def library(parts: List[Part]) -> str:
    """The symbols as a library, which KiCad compares with the schematic's own."""
    return "\n".join(["(kicad_symbol_lib (version 20211014) (generator kbd48)", *_symbols(parts), ")", ""])


def library_table() -> str:
    """The project's table of libraries."""
    place = "${KIPRJMOD}/%s.kicad_sym" % LIBRARY
    return '(sym_lib_table\n  (lib (name "%s")(type "KiCad")(uri "%s")(options "")(descr ""))\n)\n' % (LIBRARY, place)


def schematic(parts: List[Part], keys: List[Key], blocks: Dict[str, List[str]]) -> str:
    """The schematic."""
    items = placed(parts, keys, blocks)
    routes = routed(items, keys, blocks)
    body, paths = _flags(parts)
    body += _drawn_wires(routes) + [_title(*title) for title in titles(items, blocks)]
    for item in items:
        body += _instance(item, routes.joined)
        part = item.part
        paths.append('(path "/%s" (reference "%s") (unit 1) (value "%s") (footprint "%s"))' % (
            _id(part.reference), part.reference, part.value, part.type.footprint))
    symbols = [symbol.replace('(symbol "', '(symbol "%s:' % LIBRARY, 1) for symbol in _symbols(parts)]
    return '\n'.join(['(kicad_sch (version 20211123) (generator kbd48) (uuid %s) (paper "%s")' % (_id("sheet"), SHEET),
                      '(title_block (title "kbd48: the board"))', "(lib_symbols", *symbols, ")", *body,
                      '(sheet_instances (path "/" (page "1")))', "(symbol_instances", *paths, "))", ""])


def netlist(parts: List[Part]) -> str:
    """The netlist."""
    numbers = {part.reference: part.type.pins for part in parts}
    lines = ['(export (version "E")', " (components"]
    lines += ['  (comp (ref "%s") (value "%s") (footprint "%s"))' % (part.reference, part.value, part.type.footprint)
              for part in parts]
    lines += [" )", " (nets"]
    for code, (net, nodes) in enumerate(sorted(nets_of(parts).items()), 1):
        pins = "".join(' (node (ref "%s") (pin "%s"))' % (reference, numbers[reference][pin].number)
                       for reference, pin in sorted(nodes))
        lines.append('  (net (code "%d") (name "%s")%s)' % (code, net, pins))
    return "\n".join(lines + [" ))", ""])


# --- reading ---

Tree = Any  # a text, or a list of trees


def read_tree(text: str) -> Tree:
    """A text in brackets as lists."""
    stack: List[Tree] = [[]]
    for word in re.findall(r'"(?:[^"\\]|\\.)*"|[()]|[^\s()]+', text):
        if word == "(":
            stack.append([])
        elif word == ")":
            inner = stack.pop()
            stack[-1].append(inner)
        else:
            stack[-1].append(word.strip('"'))
    return stack[0][0]


def named(tree: Tree, name: str) -> List[Tree]:
    """The lists in a list that begin with a name."""
    return [inner for inner in tree if isinstance(inner, list) and inner and inner[0] == name]


def symbol_pins(symbol: Tree) -> Dict[str, Tree]:
    """The pins of a symbol by their numbers."""
    return {named(pin, "number")[0][1]: pin for unit in named(symbol, "symbol") for pin in named(unit, "pin")}


def _points(tree: Tree) -> List[Point]:
    return [(float(point[1]), float(point[2])) for point in named(named(tree, "pts")[0], "xy")]


def _is_inside(point: Point, begin: Point, end: Point) -> bool:
    """Whether a point is on a straight wire, but at neither end."""
    (x, y), (a, b), (c, d) = point, begin, end
    on_line = a == c == x and min(b, d) < y < max(b, d) or b == d == y and min(a, c) < x < max(a, c)
    return on_line and point not in (begin, end)


def _joined(places: Set[Point], wires: List[Tuple[Point, Point]]) -> Dict[Point, Point]:
    """One place for all that wires join, by each place. A wire joins its ends alone, so none may pass over another's end, or over a
    pin or a label."""
    for place in places | {end for wire in wires for end in wire}:
        for begin, end in wires:
            if _is_inside(place, begin, end):
                raise KeyError("a wire passes over %s" % (place,))
    group = {place: place for place in places | {end for wire in wires for end in wire}}
    for begin, end in wires:
        old, new = group[begin], group[end]
        if old != new:
            group.update({place: new for place, its in group.items() if its == old})
    return group


def flagged_nets(text: str) -> Set[str]:
    """The nets of which a flag says that they are supplied: the flag's pin is at their label."""
    tree = read_tree(text)
    places = [named(item, "at")[0][1:3] for item in named(tree, "symbol") if named(item, "lib_id")[0][1] == LIBRARY + ":flag"]
    return {label[1] for label in named(tree, "global_label") if named(label, "at")[0][1:3] in places}


def drawn_nets(text: str) -> Tuple[Nets, Set[Node]]:
    """The nets of a schematic, found from where its pins, wires and labels are, and the open pins. Pins are given by their
    numbers."""
    tree = read_tree(text)
    symbols = {symbol[1]: symbol_pins(symbol) for symbol in named(named(tree, "lib_symbols")[0], "symbol")}
    at: Dict[Point, Set[Node]] = {}
    for item in named(tree, "symbol"):
        x, y = map(float, named(item, "at")[0][1:3])
        reference = next(prop[2] for prop in named(item, "property") if prop[1] == "Reference")
        for number, pin in symbols[named(item, "lib_id")[0][1]].items():
            dx, dy = map(float, named(pin, "at")[0][1:3])
            if not reference.startswith("#"):
                at.setdefault((round(x + dx, 2), round(y - dy, 2)), set()).add((reference, number))
    opened = {node for mark in named(tree, "no_connect") for node in at.pop(tuple(map(float, named(mark, "at")[0][1:3])))}
    labels = [(label[1], tuple(map(float, named(label, "at")[0][1:3]))) for label in named(tree, "global_label")]
    group = _joined(set(at) | {place for _, place in labels}, [tuple(_points(wire)) for wire in named(tree, "wire")])
    names = {group[place]: net for net, place in labels}
    nets: Nets = {}
    for place, nodes in at.items():
        nets.setdefault(names.get(group[place], "at %s %s" % group[place]), set()).update(nodes)
    return nets, opened
