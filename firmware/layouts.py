"""The keys of a layout file whose tables have one entry a line, as `from_kle` writes them; and the lines that name a column."""
import re
from pathlib import Path
from typing import List, NamedTuple, Tuple

from boards import ROWS, Refused, Table


class Key(NamedTuple):
    """A key by its name in key files, and its place in the matrix."""
    name: str
    column: int
    row: int

    @property
    def place(self) -> int:
        """The number of its place."""
        return ROWS * self.column + self.row


def text_of(path: Path) -> str:
    """The text of a file."""
    try:
        return path.read_text(encoding="utf-8")
    except (OSError, UnicodeDecodeError) as fault:
        raise Refused("%s can't be read: %s" % (path, fault)) from fault


def keys_of(path: Path) -> List[Key]:
    """The keys, in the order of the file."""
    keys = []
    for table in re.split(r"^\s*\[\[\s*key\s*\]\].*$", text_of(path), flags=re.MULTILINE)[1:]:
        entry = dict(re.findall(r'^\s*(\w+)\s*=\s*"?([^"#\n]*?)"?\s*(?:#.*)?$', table, re.MULTILINE))
        if not (entry.get("column", "").isdigit() and entry.get("row", "").isdigit()):
            raise Refused("%s: a key has no column and row, each on a line of its own" % path)
        keys.append(Key(entry.get("key", "Fn"), int(entry["column"]), int(entry["row"])))
    if not keys:
        raise Refused("%s has no [[key]]" % path)
    return keys


def _columns(text: str) -> List[Tuple[int, int]]:
    """The line of each entry `column = N`, and N."""
    found = []
    for number, line in enumerate(text.splitlines(), 1):
        bare = re.sub(r'"[^"]*"|#.*', "", line)
        found += [(number, int(match[1])) for match in re.finditer(r"\bcolumn\s*=\s*(\d+)", bare)]
    return found


def judge_columns(path: Path, table: Table) -> None:
    """Each column of a layout must have a pin."""
    for number, column in _columns(text_of(path)):
        if column not in table.columns:
            raise Refused("%s: line %d: column %d has no pin: %s has columns 0 to %d"
                          % (path, number, column, table.name, len(table.columns) - 1))
