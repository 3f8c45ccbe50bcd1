"""The files that are made of a board's table and a layout."""
from pathlib import Path
from typing import Dict

from kicad import library, library_table, netlist, schematic
from lists import matrix, parts_list
from picture import picture
from tables import HERE, TABLE, read_blocks, read_board, read_layout

PICO = HERE / "pico.txt"


def made(layout: Path) -> Dict[str, str]:
    """The texts by the names of their files, of both boards."""
    keys = read_layout(layout)
    boards = {path.stem: read_board(keys, path) for path in (TABLE, PICO)}
    texts = {"matrix.txt": matrix(keys), "sym-lib-table": library_table(),
             "kbd48.kicad_sym": library([part for parts in boards.values() for part in parts])}
    for path in (TABLE, PICO):
        name, parts, blocks = path.stem, boards[path.stem], read_blocks(path)
        texts[name + ".kicad_sch"], texts[name + ".svg"] = schematic(parts, keys, blocks), picture(parts, keys, blocks)
        texts[name + ".net"] = netlist(parts)
        texts["parts.csv" if name == "board" else name + "_parts.csv"] = parts_list(parts)
    return texts
