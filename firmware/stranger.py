"""The three commands with which docs/BOARD.md begins, as a stranger types them: from the files of a VIA board to kbd48.uf2."""
import re
import shutil
import subprocess
from pathlib import Path
from typing import List

import finished
import images
from boards import HERE, Refused

TOP = HERE.parent
PAGE = TOP / "docs/BOARD.md"
SAME_LAYOUT = TOP / "examples/boards/sixty_via.toml"  # what .ci/kle compares with the layout of these files
NEEDED = ("examples", "firmware", "kbd48")


def lacks_node() -> bool:
    """Whether from_kle can't be tried."""
    return not (shutil.which("node") or shutil.which("nodejs"))


def commands() -> List[str]:
    """The lines of the page's first block, which must be before its first part."""
    found = re.search(r"^```\n(.*?)^```$", PAGE.read_text(encoding="utf-8").split("\n## ")[0], re.MULTILINE | re.DOTALL)
    lines = found[1].splitlines() if found else []
    if len(lines) != 3:
        raise Refused("%s begins with %d commands, not three" % (PAGE, len(lines)))
    return lines


def _printed(line: str, folder: Path) -> str:
    """What a command prints, which must end well."""
    done = subprocess.run(["sh", "-c", line], cwd=folder, stdout=subprocess.PIPE, stderr=subprocess.PIPE, check=False)
    if done.returncode:
        raise Refused("%s ended with status %d: %s" % (line, done.returncode, done.stderr.decode(errors="replace")))
    return done.stdout.decode()


def three_commands(work: Path) -> str:
    """The commands as they are in the page, at the top of the repository; the files that they make are in a folder of their own."""
    folder = work / "stranger"
    folder.mkdir()
    for name in NEEDED:
        (folder / name).symlink_to(TOP / name)
    _, made, wired = (_printed(line, folder) for line in commands())
    if made.split() != ["kbd48.hex", "kbd48.uf2"]:
        raise Refused("the second command made: %s" % made)
    table, memory = finished.read(folder / "kbd48.uf2")
    image = images.image_in(memory)
    if table.name != "pico" or image.source != "my.toml" or image.program != images.of_layout(SAME_LAYOUT, table).program:
        raise Refused("kbd48.uf2 is for %s, with another image than that of %s: %s" % (table.name, SAME_LAYOUT, image.source))
    rows = wired.splitlines()[2:10]
    if [line.split()[:2] for line in rows] != [[str(row), pin.name] for row, pin in table.rows.items()] or "clock GP20" not in wired:
        raise Refused("the third command printed: %s" % wired)
    return "a VIA board's files become kbd48.uf2, as docs/BOARD.md says"
