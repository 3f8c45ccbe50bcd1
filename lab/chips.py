"""The boards of firmware/ as the page has them: the flash memory of each finished file, in which a layout's image has its place.
lab/src/firmware makes files of it."""

from __future__ import annotations

import base64
import sys
from pathlib import Path

sys.path.append(str(Path(__file__).resolve().parent.parent / "firmware"))

import finished  # noqa: E402
from boards import FOLDER  # noqa: E402


def chips() -> dict[str, dict[str, object]]:
    """By the board's name: its memory and the address of that, how many columns have a pin, and whether it takes a UF2."""
    found: dict[str, dict[str, object]] = {}
    for name in sorted(path.stem for path in FOLDER.glob("*.txt")):
        table, memory = finished.read(finished.of_board(name))
        found[name] = {
            "begin": table.range_of("flash")[0],
            "columns": len(table.columns),
            "takesUf2": table.facts["chip"] == "rp2040",
            "memory": base64.b64encode(memory).decode(),
        }
    return found
