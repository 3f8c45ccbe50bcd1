"""The finished files of the repository, and whether they are of these sources."""
import hashlib
import shutil
import subprocess
from pathlib import Path
from typing import Dict, List

import build
import finished
import uf2
from boards import FOLDER, HERE, Refused, Table, read_table

MADE_OF = "made_of.txt"


def from_sources(table: Table, folder: Path) -> bytes:
    """The flash memory of the program as it is compiled; its ELF file is left in the folder."""
    memory = build.flash_of(build.compiled(table, folder, build.sources_of(table)))
    return uf2.with_boot_crc(memory) if table.facts["chip"] == "rp2040" else memory


def _tables() -> List[Table]:
    return [read_table(path) for path in sorted(FOLDER.glob("*.txt"))]


def _compiler() -> str:
    if not shutil.which(build.COMPILER):
        return "none"
    said = subprocess.run([build.COMPILER, "--version"], stdout=subprocess.PIPE, check=True).stdout.decode()
    return said.splitlines()[0]


def made_of() -> Dict[str, str]:
    """Of what the finished files are made: the compiler, and checksums of sources and archives."""
    total = hashlib.sha256()
    for path in sorted([*HERE.glob("*.[chS]"), HERE / "chip.ld", *FOLDER.glob("*.txt"), build.HEADER], key=lambda it: it.name):
        total.update(path.name.encode() + b"\0" + path.read_bytes())
    archives = sorted({build.archive_of(table) for table in _tables()})
    sums = {path.parent.name: hashlib.sha256(path.read_bytes()).hexdigest() if path.is_file() else "none" for path in archives}
    return {"compiler": _compiler(), "sources": total.hexdigest(), **sums}


def make(folder: Path) -> List[Path]:
    """The finished files of all boards, in a folder, with a text that says of what they are made."""
    folder.mkdir(parents=True, exist_ok=True)
    paths = []
    for table in _tables():
        work = folder / (table.name + ".parts")
        work.mkdir(exist_ok=True)
        made = finished.write(from_sources(table, work), table, folder / table.name)
        shutil.rmtree(work)
        for path in made[:-1]:
            path.unlink()
        paths.append(made[-1])
    (folder / MADE_OF).write_text("".join("%s %s\n" % item for item in made_of().items()), encoding="ascii")
    return [*paths, folder / MADE_OF]


def judge(folder: Path) -> str:
    """The repository's finished files must be those that these sources give. With another compiler, or without archives, only
    the checksums of what is there are compared."""
    text = (finished.PREBUILT / MADE_OF).read_text(encoding="ascii")
    was, now = dict(line.split(" ", 1) for line in text.splitlines()), made_of()
    for name, value in was.items():
        if name != "compiler" and now.get(name) not in (value, "none"):
            raise Refused("they are of other %s: firmware/make --prebuilt makes them anew"
                          % (name if name == "sources" else "archives (%s)" % name))
    if was != now:
        return "of these sources; not compared byte by byte: another compiler, or no archive"
    for path in make(folder):
        if path.read_bytes() != (finished.PREBUILT / path.name).read_bytes():
            raise Refused("%s isn't what these sources give" % path.name)
    return "as these sources give them, byte by byte"
