"""Key files as the program accepts them: what happens, and when."""
from typing import Iterator, List, Tuple

CYCLES_OF_A_MS = 400


def stamp_of(field: str) -> int:
    """A stamp as a key file writes it: in cycles, or in milliseconds."""
    return int(field[:-2]) * CYCLES_OF_A_MS if field.endswith("ms") else int(field)


def lines_of(keys: str) -> Iterator[Tuple[int, List[str]]]:
    """The stamp of each line that isn't blank, and its other words; `end` is the last."""
    for line in keys.splitlines():
        words = line.split("#")[0].split()
        if words:
            yield stamp_of(words[0]), words[1:]
