"""The tables of examples/kle as the page has them: what key codes and legends mean. The rules over them are in lab/src/boards.
examples/kle/tables.mjs reads the same for Node."""

from __future__ import annotations

import json
import re
from pathlib import Path

EXAMPLES = Path(__file__).resolve().parent.parent / "examples"


def tables() -> dict[str, object]:
    """The tables by the names of their files; the names of the 84 keys; and the text of `from_kle --help`."""
    found: dict[str, object] = {path.stem: json.loads(path.read_text(encoding="utf-8")) for path in (EXAMPLES / "kle").glob("*.json")}
    sample, script = ((EXAMPLES / name).read_text(encoding="utf-8") for name in ("us84.toml", "from_kle"))
    head = re.match(r"#!.*\n((?:#.*\n)*)", script)[1]
    return {**found, "keys": re.findall(r'^key = "([^"]+)"', sample, re.MULTILINE), "help": re.sub("^# ?", "", head, flags=re.MULTILINE)}
