"""Which key is wired to which pins of a board, and what a finished file has."""
import hashlib
from pathlib import Path

from boards import Table
from images import Image
from layouts import judge_columns, keys_of


def _key_at(keys, column: int, row: int) -> str:
    return next((key.name for key in keys if (key.column, key.row) == (column, row)), "-")


def wiring(layout: Path, table: Table) -> str:
    """A line for each row of the matrix, with the pins beside rows and columns; then the other pins."""
    judge_columns(layout, table)
    keys = keys_of(layout)
    used = [column for column in table.columns if any(key.column == column for key in keys)]
    cells = [["row", "pin"] + ["column %d" % column for column in used],
             ["", ""] + [table.columns[column].name for column in used]]
    cells += [[str(row), pin.name] + [_key_at(keys, column, row) for column in used] for row, pin in table.rows.items()]
    widths = [max(map(len, column)) for column in zip(*cells)]
    lines = ["  ".join(cell.ljust(width) for cell, width in zip(row, widths)).rstrip() for row in cells]
    others = ["%s %s" % (name, pin.name) for name, pin in table.single.items()]
    free = [pin.name for column, pin in table.columns.items() if column not in used]
    return "\n".join([*lines, "", "others: " + ", ".join(others), *(["free: " + ", ".join(free)] if free else []), ""])


def told(image: Image, table: Table, size: int) -> str:
    """What a finished file has."""
    what = ("the image of the layout" if image.is_kernel else "the program") if any(image.program) else "no program yet"
    return "board %s, %d bytes of flash memory, %s %s, SHA-256 %s\n" % (
        table.name, size, what, image.source or "-", hashlib.sha256(image.program).hexdigest())
