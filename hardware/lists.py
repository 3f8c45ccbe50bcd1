"""What to order, and the chart of the matrix."""
import csv
import io
import re
from typing import Dict, List, Tuple

from tables import COLUMNS, ROWS, Key, Part


def _ranges(references: List[str]) -> str:
    """References as a reader wants them: R1-R10."""
    runs: List[List[Tuple[str, int]]] = []
    for reference in references:
        letters, number = re.match(r"([A-Z]+)(\d+)$", reference).groups()
        if runs and runs[-1][-1] == (letters, int(number) - 1):
            runs[-1].append((letters, int(number)))
        else:
            runs.append([(letters, int(number))])
    return " ".join("%s%d" % run[0] if len(run) == 1 else "%s%d-%s%d" % (run[0] + run[-1]) for run in runs)


def parts_list(parts: List[Part]) -> str:
    """A line for each kind of part: count, value, what to order, KiCad's footprint, the references."""
    lines: Dict[Tuple[str, str, str], List[str]] = {}
    for part in parts:
        value = {"switch": "key switch", "led": "green"}.get(part.type.name, part.value)
        lines.setdefault((value, part.order, part.type.footprint), []).append(part.reference)
    out = io.StringIO()
    writer = csv.writer(out, lineterminator="\n")
    writer.writerow(["count", "value", "order (from memory of catalogues)", "footprint", "references"])
    writer.writerows([len(references), *line, _ranges(references)] for line, references in lines.items())
    return out.getvalue()


def matrix(keys: List[Key]) -> str:
    """The matrix, a line for each row: the key in each column, with its number n for SWn and Dn."""
    cells = {(key.column, key.row): "%s %d" % (key.name, number) for number, key in enumerate(keys, 1)}
    rows = [["row"] + ["column %d" % column for column in range(COLUMNS)]]
    rows += [[str(row)] + [cells.get((column, row), "-") for column in range(COLUMNS)] for row in range(ROWS)]
    widths = [max(map(len, column)) for column in zip(*rows)]
    return "".join("  ".join(cell.ljust(width) for cell, width in zip(row, widths)).rstrip() + "\n" for row in rows)
