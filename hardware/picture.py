"""The schematic as a picture (SVG)."""
from html import escape
from typing import Dict, List, Set

from drawing import SHAPES, Placed, ends, placed, shape
from routes import routed, titles
from tables import Key, Node, Part

MARGIN = 12
HEAD = """<svg xmlns="http://www.w3.org/2000/svg" viewBox="%g %g %g %g" font-family="Helvetica, Arial, sans-serif">
<title>The board: schematic</title>
<rect x="%g" y="%g" width="%g" height="%g" fill="#fff"/>
<g fill="none" stroke="#222" stroke-width="0.25">"""


def _text(x: float, y: float, text: str, anchor: str, colour: str = "#222", size: float = 1.6) -> str:
    return '<text x="%g" y="%g" text-anchor="%s" fill="%s" stroke="none" font-size="%g">%s</text>' % (
        x, y, anchor, colour, size, escape(text))


def _drawn(item: Placed, joined: Set[Node]) -> List[str]:
    part, drawn = item.part, shape(item.part.type)
    lines = ['<polyline points="%s"/>' % " ".join("%g,%g" % (round(item.x + x, 2), round(item.y + y, 2)) for x, y in line)
             for line in drawn.lines]
    chip = part.type.name not in SHAPES
    top = min(y for line in drawn.lines for _, y in line)
    told = part.reference if part.type.name == "schottky" else "%s %s" % (part.reference, part.value)
    lines.append(_text(item.x, item.y + top - 0.8, told, "middle", size=2.6 if chip else 1.6))
    for pin, (x, y) in ends(item).items():
        side = drawn.sides[pin]
        before, after = ("end", "start") if side < 0 else ("start", "end")
        net = part.nets.get(pin, "open")
        if not net.startswith("KEY") and (part.reference, pin) not in joined:
            lines.append(_text(x + side * 0.5, y + 0.5, net, before, "#888" if net == "open" else "#05a"))
        if chip:
            lines.append(_text(x - side * 4.6, y - 0.3, part.type.pins[pin].number, "middle", "#888", 1.3))
            lines.append(_text(x - side * 5.7, y + 0.5, pin, after))
    return lines


def picture(parts: List[Part], keys: List[Key], blocks: Dict[str, List[str]]) -> str:
    """The picture: what KiCad's schematic has, at the same places."""
    items = placed(parts, keys, blocks)
    routes = routed(items, keys, blocks)
    points = [point for item in items for point in ends(item).values()]
    points += [point for _, point in titles(items, blocks)] + [point for wire in routes.wires for point in wire]
    left, top = min(x for x, _ in points) - MARGIN, min(y for _, y in points) - MARGIN
    size = (max(x for x, _ in points) + MARGIN - left, max(y for _, y in points) + MARGIN - top)
    lines = [HEAD % (left, top, *size, left, top, *size)]
    lines += ['<polyline stroke="#060" points="%g,%g %g,%g"/>' % (*begin, *end) for begin, end in routes.wires]
    lines += ['<circle cx="%g" cy="%g" r="0.5" fill="#060" stroke="none"/>' % at for at in routes.dots]
    lines += [_text(x + side * 0.5, y + 0.5, net, "end" if side < 0 else "start", "#05a") for net, (x, y), side in routes.labels]
    lines += [_text(x, y, title, "middle", size=4) for title, (x, y) in titles(items, blocks)]
    for item in items:
        lines += _drawn(item, routes.joined)
    return "\n".join(lines + ["</g>", "</svg>", ""])
