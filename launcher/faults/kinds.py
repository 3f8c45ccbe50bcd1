"""What a file is, whatever its name: the table is examples/kle/kinds.json, which the converter of boards has, too."""
from __future__ import annotations

import json
import re
from functools import lru_cache
from pathlib import Path

TABLE = Path(__file__).resolve().parent.parent.parent / "examples/kle/kinds.json"
# So many bytes of a file are looked at.
LOOKED_AT = 65536
# So many bytes at least and at most show that a text is UTF-16.
WIDE_FROM, WIDE_TO = 4, 64


@lru_cache(maxsize=1)
def table():
    try:
        return json.loads(TABLE.read_text(encoding="utf-8"))
    except (OSError, ValueError):
        return {"bytes": [], "texts": [], "wide": None}


def is_wide(data):
    """Whether a text is UTF-16 without a mark: every other one of its first bytes is zero, and the others aren't."""
    begin = data[: min(WIDE_TO, len(data) // 2 * 2)]
    halves = begin[::2], begin[1::2]
    return len(begin) >= WIDE_FROM and any(all(one) and not any(other) for one, other in (halves, halves[::-1]))


def of_bytes(data):
    """The entry of the table that fits, or None."""
    begin = data[:8].hex().upper()
    for entry in table()["bytes"]:
        if begin.startswith(entry["begins"]):
            return {"kind": "bytes", **entry}
    if table()["wide"] and is_wide(data):
        return {"kind": "bytes", **table()["wide"]}
    try:
        text = data[:LOOKED_AT].decode("utf-8-sig", errors="strict" if len(data) <= LOOKED_AT else "ignore")
    except UnicodeDecodeError:
        return None
    return next((it for it in table()["texts"] if re.search(it["form"], text, re.MULTILINE | re.IGNORECASE)), None)


def of_file(name):
    """The entry for a file, or None."""
    try:
        with open(name, "rb") as file:
            return of_bytes(file.read(LOOKED_AT + 1))
    except OSError:
        return None


def said(entry, name):
    """What is said of a file of this kind, and which command takes it."""
    return f"it is {entry['is']}" + (f"; {entry['takes'].replace('FILE', name)} takes it" if "takes" in entry else f"; {entry['do']}")
