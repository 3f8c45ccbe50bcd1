"""Puts the page together: lab/src, the examples and the two modules become one HTML file that loads nothing."""

from __future__ import annotations

import base64
import csv
import gzip
import hashlib
import json
import re
import subprocess
import zlib
from pathlib import Path

from chips import chips
from tables import tables

LAB = Path(__file__).resolve().parent
ROOT = LAB.parent
PAGE = LAB / "lab.html"
MOST_BYTES = 980_000
MANY_KEYS = 84

# The examples that the page has.
EXAMPLES = """
    us84.toml sixty.json sixty.toml sixty_fn.toml four_keys.toml typing_hi.keys capital_a.keys held_key.keys caps_lock.keys
    host.keys ctrl_alt_del.keys noisy_line.keys broken_frame.keys sixty_fn.keys right_ctrl.keys hello.text
    make_code.keys make_code.script four_keys.asm four_keys.hex four_keys.keys four_keys.script four_keys.cert
    wrong_parity.script unset_cell.asm run_on.asm timer.asm delay.asm delay.hex delay.cert us84.hex
    kernel_delay.cert every_instruction.asm
    captures/parity.csv captures/missing.vcd
""".split()
# The documents that the page shows.
DOCUMENTS = {"firmware": "OWN-FIRMWARE.md", "instructions": "INSTRUCTIONS.md"}
NAME = re.compile(r"^(?:async )?(?:class|function\*?) ([A-Za-z_]\w*)", re.MULTILINE)
# A line may begin several constants.
LINE, CONSTANT = re.compile(r"^(?:const|let) .*$", re.MULTILINE), re.compile(r"(?:^const|^let|,) ([A-Za-z_]\w*) = ")
# The parts of a value that get names: `const { one, two: TWO } = ..` or `const [one, two] = ..`.
TAKEN_APART, PART = re.compile(r"^(?:const|let) [{\[]([^}\]=]*)[}\]] = ", re.MULTILINE), re.compile(r"([A-Za-z_]\w*)(?=\s*(?:,|$))")
IMPORT = re.compile(r"^import [^;]*? from '(\.[^']+)';\n", re.MULTILINE)


class Broken(Exception):
    """What the page is made of isn't as it must be."""


def modules_in_order(entry: Path, done: list[Path]) -> list[Path]:
    """A script and those that it imports, each after what it imports itself."""
    for name in IMPORT.findall(entry.read_text(encoding="utf-8")):
        imported = (entry.parent / name).resolve()
        if imported not in done:
            modules_in_order(imported, done)
    if entry not in done:
        done.append(entry)
    return done


def names_of(script: str) -> list[str]:
    """The names at the top of a script."""
    constants = [name for line in LINE.findall(script) for name in CONSTANT.findall(line)]
    parts = [name for taken in TAKEN_APART.findall(script) for name in PART.findall(taken)]
    return [*NAME.findall(script), *constants, *parts]


def script() -> str:
    """All scripts as one. Two of them may not have one name at their top: the browser would refuse it."""
    parts = []
    for path in modules_in_order(LAB / "src" / "main.js", []):
        text = IMPORT.sub("", path.read_text(encoding="utf-8"))
        text = re.sub(r"^export (?=(async )?(const|let|class|function)\b)", "", text, flags=re.MULTILINE)
        if re.search(r"^(import|export)\b", text, re.MULTILINE):
            raise Broken(f"{path.name}: an import or export of a form that isn't known")
        parts.append(text)
    names = [name for part in parts for name in names_of(part)]
    if twice := sorted({name for name in names if names.count(name) > 1}):
        raise Broken(f"two scripts have the same name at their top: {', '.join(twice)}")
    return "\n".join(parts)


def kernel() -> str:
    """The source of the keyboard's firmware."""
    text = (ROOT / "crates/fw_kernel/src/text.rt").read_text(encoding="utf-8")
    found = re.search(r'pub const SOURCE: &str = r"\n(.*?)";', text, re.DOTALL)
    if not found:
        raise Broken("crates/fw_kernel/src/text.rt: no SOURCE")
    return found[1]


def codes() -> dict[str, int]:
    """The code that the keyboard sends for each of the 84 keys, by the key's name."""
    text = (ROOT / "crates/pc_tables/src/key_table.rt").read_text(encoding="utf-8")
    found = {name: int(code, 16) for name, code in re.findall(r'=> row\("(\w+)", 0x([0-9a-f]{2}), ', text)}
    if len(found) != MANY_KEYS or len(set(found.values())) != MANY_KEYS:
        raise Broken(f"crates/pc_tables/src/key_table.rt: {len(found)} keys")
    return found


def examples() -> dict[str, str]:
    """The files that the page begins with."""
    files = {Path(name).name: (ROOT / "examples" / name).read_text(encoding="utf-8") for name in EXAMPLES}
    return {**files, "kernel.asm": kernel()}


def faults() -> dict[str, dict[str, str]]:
    """The faults of each kind of file, by number, in words."""
    found: dict[str, dict[str, str]] = {}
    with open(ROOT / "docs/faults.tsv", encoding="utf-8", newline="") as table:
        for row in csv.DictReader(table, delimiter="\t", quoting=csv.QUOTE_NONE):
            found.setdefault(row["kind"], {})[row["number"]] = row["in words"].replace("`", "")
    return found


def policy_hash(text: str) -> str:
    """What the page's policy calls a script or a style by."""
    return "'sha256-" + base64.b64encode(hashlib.sha256(text.encode()).digest()).decode() + "'"


def data(value: object) -> str:
    """JSON that may stand in a page."""
    return json.dumps(value, ensure_ascii=False, sort_keys=True).replace("</", "<\\/")


def packed(module: bytes) -> str:
    """A module as text; the same module gives the same text."""
    return base64.b64encode(gzip.compress(module, 9, mtime=0)).decode()


def checksum(module: str) -> str:
    """The SHA-256 of a packed module's WebAssembly, or a reason why it is none."""
    try:
        return hashlib.sha256(gzip.decompress(base64.b64decode(module, validate=True))).hexdigest()
    except (ValueError, EOFError, OSError, zlib.error) as why:
        return str(why)


def head(keyboard: str, program: str, sources: str) -> str:
    """What the page says of its modules: the checksums of their sources and of their bytes."""
    fields = {"sources": sources, "keyboard-module": checksum(keyboard), "program-module": checksum(program)}
    return "\n".join(f'<meta name="kbd48-{name}" content="{it}">' for name, it in fields.items())


def page(keyboard: str, program: str, sources: str) -> str:
    """The page, with the two packed modules and the checksum of the crates that they were made of."""
    style, code = (LAB / "src/style.css").read_text(encoding="utf-8"), script()
    if "</script" in code or "</style" in style:
        raise Broken("a script or the style ends itself")
    policy = (
        f"default-src 'none'; script-src {policy_hash(code)} 'wasm-unsafe-eval'; style-src {policy_hash(style)}; "
        "img-src data:; worker-src blob:; base-uri 'none'; form-action 'none'"
    )
    fields = {
        "<!--POLICY-->": f'<meta http-equiv="Content-Security-Policy" content="{policy}">',
        "<!--MODULES-->": head(keyboard, program, sources),
        "/*STYLE*/": style,
        "/*FILES*/": data(examples()),
        "/*FAULTS*/": data(faults()),
        "/*BOARDS*/": data(tables()),
        "/*MANUAL*/": data({name: (ROOT / "docs" / page).read_text(encoding="utf-8") for name, page in DOCUMENTS.items()}),
        "/*CHIPS*/": data(chips()),
        "/*CODES*/": data(codes()),
        "/*KEYBOARD*/": keyboard,
        "/*PROGRAM*/": program,
        "/*SCRIPT*/": code,
    }
    text = (LAB / "src/page.html").read_text(encoding="utf-8")
    parts = re.split("(" + "|".join(map(re.escape, fields)) + ")", text)
    if sorted(part for part in parts if part in fields) != sorted(fields):
        raise Broken("lab/src/page.html: each field must be there once")
    made = "".join(fields.get(part, part) for part in parts)
    if len(made.encode()) > MOST_BYTES:
        raise Broken(f"the page has {len(made.encode())} bytes, more than {MOST_BYTES}")
    return made


def sources() -> str:
    """The checksum of what the modules are made of."""
    return subprocess.run([ROOT / "launcher/sources", "--module"], check=True, stdout=subprocess.PIPE, text=True).stdout.strip()


def content(text: str, name: str) -> str:
    """What the page's head says under a name."""
    found = re.search(f'<meta name="kbd48-{name}" content="([0-9a-f]{{64}})">', text)
    if not found:
        raise Broken(f"lab/lab.html has no kbd48-{name}")
    return found[1]


def kept() -> tuple[str, str, str]:
    """The packed modules and the checksum of the page that is there. Each module must be the one that the head names."""
    text = PAGE.read_text(encoding="utf-8")
    found = {}
    for name in ("keyboard-module", "program-module"):
        if not (module := re.search(f'id="{name}">([A-Za-z0-9+/=]+)<', text)):
            raise Broken(f"lab/lab.html has no {name}")
        if checksum(module[1]) != content(text, name):
            raise Broken(f"lab/lab.html: the {name} was changed: its checksum is another than the page says")
        found[name] = module[1]
    return found["keyboard-module"], found["program-module"], content(text, "sources")
