"""Files with planted faults, each of which must be refused, by its line or block; and the scripts' own tests."""
import struct
import subprocess
import sys
from pathlib import Path
from typing import Callable, List, Tuple

import ihex
import images
import uf2
from boards import FOLDER, HERE, Refused, Table, pins_h, read_board, read_table
from build import run

EXAMPLES = HERE.parent / "examples"
US84 = EXAMPLES / "us84.toml"
# A board's table with one text in the place of another, and what is said then.
TABLES = (
    ("column 5 GP13", "column 5 GP7", "line 25: pin GP7 is named twice: it is row 7"),
    ("data GP21", "data GP20", "line 33: pin GP20 is named twice: it is clock"),
    ("late GP25", "late GP23", "line 37: rp2040 has no pin GP23 for this"),
    ("row 3 GP3", "row 3 GP22", "line 15: the rows are read at once, so row 3 must follow row 2 at the next pin"),
    ("column 11 GP19", "column 12 GP19", "line 31: the columns are 0 to 11 at most, in their order"),
    ("clock GP20", "strobe GP20", "line 32: a line is a fact"),
    ("caps GP27\n", "", "it has no caps"),
    ("chip rp2040", "chip rp2350", "line 3: the chip is one of rp2040, stm32f1, stm32f4"),
)


def says(want: str, call: Callable[[], object]) -> None:
    """A call must be refused, with these words."""
    try:
        call()
    except Refused as fault:
        if want not in str(fault):
            raise Refused("it says '%s', not '%s'" % (fault, want)) from fault
        return
    raise Refused("it isn't refused with '%s'" % want)


def tables(folder: Path) -> str:
    """Tables of boards."""
    text = (FOLDER / "pico.txt").read_text(encoding="ascii")
    for before, after, want in TABLES:
        path = folder / "planted.txt"
        if text.count(before) != 1:
            raise Refused("pico.txt has '%s' %d times" % (before, text.count(before)))
        path.write_text(text.replace(before, after), encoding="ascii")
        says(want, lambda path=path: read_table(path))
    return "%d planted faults refused, 3 tables read: %s" % (len(TABLES), " ".join(
        "%d+%d" % (len(table.columns), len(table.rows)) for table in map(read_table, sorted(FOLDER.glob("*.txt")))))


def _flash() -> bytes:
    """A flash memory of a Pico without code: boot block, vectors, the place for an image."""
    head = images.HEAD.pack(images.MARK, images.FORM, 1, b"pico", b"")
    memory = bytes(range(252)) + bytes(4) + struct.pack("<2I", uf2.RAM + 0x1000, uf2.FLASH + 0x181) + bytes(0x78) + head
    return uf2.with_boot_crc(memory + bytes(images.SIZE + 8))


def _changed(file: bytes, block: int, at: int, value: int) -> bytes:
    """A UF2 with another word in a block."""
    place = block * uf2.BLOCK + at
    return file[:place] + struct.pack("<I", value) + file[place + 4:]


def uf2_files(folder: Path) -> str:
    """UF2 files."""
    flash = _flash()
    good = uf2.packed(flash)
    if uf2.unpacked(good)[:len(flash)] != flash or len(good) % (16 * uf2.BLOCK):
        raise Refused("a UF2 isn't read back, or has no whole sectors")
    uf2.judge_flash(uf2.unpacked(good))
    # The CRC of the nine digits by this polynomial, begin and order is known: CRC-32/MPEG-2.
    if uf2.crc32(b"123456789") != 0x0376E6E7:
        raise Refused("the CRC is wrong: %08X" % uf2.crc32(b"123456789"))
    faults = (
        ("block 0: no UF2", _changed(good, 0, 0, 1)), ("block 3: no UF2", _changed(good, 3, 508, 1)),
        ("block 2: family ADA52840 isn't the RP2040's", _changed(good, 2, 28, 0xADA52840)),
        ("block 1: family E48BFF56 isn't", _changed(good, 1, 8, 0)), ("block 1: flags 00002001", _changed(good, 1, 8, 0x2001)),
        ("block 5: 476 bytes", _changed(good, 5, 16, 476)), ("block 7: it says that it is block 6 of 16", _changed(good, 7, 20, 6)),
        ("block 7: it says that it is block 7 of 15", _changed(good, 7, 24, 15)),
        ("block 9: address 10000800, not 10000900", _changed(good, 9, 12, 0x10000800)),
        ("block 0: it says that it is block 0 of 16", good[:-512]), ("aren't blocks of 512", good[:-1]), ("no UF2: 0 bytes", b""))
    for want, file in faults:
        says(want, lambda file=file: uf2.unpacked(file))
    says("block 0: the boot block's CRC", lambda: uf2.judge_flash(b"\1" + flash[1:]))
    says("block 1: stack", lambda: uf2.judge_flash(flash[:256] + bytes(4) + flash[260:]))
    says("block 1: stack", lambda: uf2.judge_flash(flash[:260] + struct.pack("<I", uf2.FLASH + 0x180) + flash[264:]))
    return "%d planted faults refused" % (len(faults) + 3)


def hex_files(folder: Path) -> str:
    """HEX files, and what is put into a finished file."""
    data = bytes(range(256)) * 300
    if ihex.read(ihex.written(0x0800FF00, data)) != (0x0800FF00, data):
        raise Refused("a HEX file isn't read back")
    text = ihex.written(0, b"abc")
    for want, wrong in (("line 2: no record", text.replace("61", "62")), ("it has no end", text.replace(":00000001FF\n", "")),
                        ("line 4: a record of kind 0", text + ":0100000000FF\n"), ("it has no byte", ":00000001FF\n")):
        says(want, lambda wrong=wrong: ihex.read(wrong))
    table, flash = read_board("pico"), _flash()
    image = images.Image(bytes(range(256)) * 8, True, "ü" * 90)
    done = images.put_in(flash, image, table)
    back = images.image_in(done)
    if back.program != image.program or len(done) != len(flash) or not image.source.startswith(back.source) or not back.is_kernel:
        raise Refused("an image isn't read back")
    at = flash.index(images.MARK)
    says("has form 2; this script knows form 1", lambda: images.put_in(flash[:at + 8] + b"\2" + flash[at + 9:], image, table))
    says("it is for the board pico, not bluepill", lambda: images.put_in(flash, image, read_board("bluepill")))
    says("it isn't this project's", lambda: images.put_in(flash.replace(images.MARK, bytes(8)), image, table))
    says("it isn't this project's", lambda: images.put_in(flash + images.MARK, image, table))
    return "8 planted faults refused"


# A line of a HAL's start with a slip, and what the model of the registers says then.
SLIPS = (
    ("pico", "    out_of_reset(IO_BANK | PADS_BANK);\n", "", "the pads are touched in reset"),
    ("pico", "6 << 16 | 2 << 12", "6 << 16 | 1 << 12", "MHz"), ("pico", "CLOCKS + 0x30) = 2;", "CLOCKS + 0x30) = 0;", "it waits for ever"),
    ("pico", "ROWS & pin ? 1u << 3", "ROWS & pin ? 1u << 2", "a pad without input, or pulled down"),
    ("pico", "PINS_DRIVE(LIGHTS | LATE)", "PINS_DRIVE(LIGHTS | CLOCK)", "the pins that are driven"),
    ("pico", "1 << 9 | 12", "1 << 9 | 125", "watchdog"), ("pico", "0x1FFFC", "0x1FFFF", "what the watchdog resets"),
    ("bluepill", "    PORT_PUT(port, rows | open_drain, lights);", "    PORT_PUT(port, rows, lights);", "a wire or a column is pulled at first"),
    ("bluepill", "|= 0x1D", "|= 0x15", "a port is touched before it has a clock"), ("bluepill", "= 0x12;", "= 0x10;", "wait states"),
    ("bluepill", "open_drain & pin ? 6", "open_drain & pin ? 2", "the mode of a pin"),
    ("blackpill", "(BOARD_CLOCK_MHZ * 4) << 6", "BOARD_CLOCK_MHZ << 6", "MHz"), ("blackpill", "+ 4) |= open_drain", "+ 4) |= rows", "the drain"),
    ("blackpill", "n, rows & pin ? 1 : 0)", "n, rows & pin ? 2 : 0)", "the pull or the drain of a pin"),
)


def registers(folder: Path) -> str:
    """The start of each HAL, on a model of its chip's registers."""
    told = []
    for name in ("pico", "bluepill", "blackpill"):
        table = read_board(name)
        (folder / "pins.h").write_text(pins_h(table), encoding="ascii")
        source = (HERE / table.facts["hal"]).with_suffix(".c").read_text(encoding="ascii")
        for board, before, after, want in ((name, "", "", ""), *SLIPS):
            if board == name:
                if before and source.count(before) != 1:
                    raise Refused("%s's start has '%s' %d times" % (name, before, source.count(before)))
                said = _started(folder, table, source.replace(before, after) if before else source)
                if want not in said or (want == "") != said.endswith("MHz\n"):
                    raise Refused("%s, '%s' for '%s': %s" % (name, after, before, said))
                told += ["%s %s" % (name, said.strip())] if not want else []
    return "%s; %d slips found" % ("; ".join(told), len(SLIPS))


def _started(folder: Path, table: Table, source: str) -> str:
    """What the model says of a start."""
    (folder / "start.c").write_text(source, encoding="ascii")
    run(["cc", "-std=gnu11", "-O1", "-Wall", "-Wextra", "-Werror", "-Wno-unused", "-I", folder, "-I", HERE, '-DHAL="%s"' % table.facts["hal"],
         '-DSTART="start.c"', HERE / "sim/registers.c", "-o", folder / "start"])
    done = subprocess.run([str(folder / "start")], stdout=subprocess.PIPE, stderr=subprocess.STDOUT, check=False)
    return done.stdout.decode()


def layouts(folder: Path) -> str:
    """Layouts that don't fit, and calls of `make` as a user makes them."""
    narrow = folder / "narrow.txt"
    lines = (FOLDER / "pico.txt").read_text(encoding="ascii").splitlines()
    narrow.write_text("\n".join(line for line in lines if line not in ("column 10 GP18", "column 11 GP19")), encoding="ascii")
    line = next(number for number, text in enumerate(US84.read_text(encoding="ascii").splitlines(), 1) if text == "column = 10")
    says("us84.toml: line %d: column 10 has no pin: narrow has columns 0 to 9" % line,
         lambda: images.of_layout(US84, read_table(narrow)))
    flash, finished = _flash(), folder / "other.uf2"
    at = flash.index(images.MARK)
    finished.write_bytes(uf2.packed(flash[:at + 8] + b"\2" + flash[at + 9:]))
    calls = (
        (1, "line %d: column 10 has no pin" % line, ["--wiring", US84, narrow]),
        (1, "has form 2; this script knows form 1", [US84, finished]), (1, "no board is named micro", [US84, "micro"]),
        (1, "--compile makes one with these", [US84, narrow]), (1, "can't be read", [folder / "none.toml", "pico"]),
        (1, "can't be read", ["--show", folder / "none.uf2"]), (2, "usage", [US84]), (2, "usage", ["--show", "--prebuilt"]))
    for status, want, words in calls:
        to = [] if "--show" in words else ["--to", str(folder)]
        done = subprocess.run([sys.executable, str(HERE / "make"), *to, *map(str, words)], capture_output=True, check=False)
        said = done.stderr.decode()
        if done.returncode != status or want not in said or done.stdout or "Traceback" in said:
            raise Refused("make %s ended with %d and said: %s" % (" ".join(map(str, words)), done.returncode, said))
    return "%d calls of make refused" % len(calls)


def tests(folder: Path) -> List[Tuple[str, Callable[[], str]]]:
    """The tests, with their names."""
    return [(name, lambda test=test: test(folder)) for name, test in (
        ("tables", tables), ("UF2 files", uf2_files), ("HEX files", hex_files), ("make", layouts), ("the start of each board", registers))]
