"""Save states: a keyboard of the sample layout is saved when it has tested itself. Then somebody types h, and this prints
what happened and what is inside. A second keyboard is loaded of the save, and the same calls print the same.
c/build && python3 examples/embed_saved.py"""
import os
import sys

# If the wheel is installed, these four lines aren't needed.
sys.dont_write_bytecode = True
TOP = os.path.join(os.path.dirname(os.path.abspath(__file__)), "..")
sys.path.insert(0, os.path.join(TOP, "packages", "python"))
os.environ.setdefault("KBD48_LIBRARY", os.path.join(TOP, "dist", "libkbd48.so.1"))

from kbd48 import Error, Keyboard, Status  # noqa: E402

LAST = 76  # the cell that has the last byte which the keyboard sent (docs/FIRMWARE.md)


def report(keyboard):
    """What happened since this was last asked, and what is inside now."""
    lines = [f"{item.cycle} {item.kind.name.lower()} {item.value:04X}" for item in keyboard.items()]
    inside = keyboard.processor
    return [*lines, f"cycle {keyboard.cycle}: counter {inside.counter:03X}, accumulator {inside.a:02X}, "
                    f"cell {LAST} {keyboard.cell(LAST):02X}"]


def type_h(keyboard):
    h = Keyboard.place_of("h")
    for down in (True, False):
        keyboard.key(h, down)
        keyboard.run(20_000)
    return report(keyboard)


def refusal(data):
    """What becomes of bytes that are loaded."""
    try:
        Keyboard.of_saved(data).close()
    except Error as error:
        return "refused" if error.status == Status.OTHER_VERSION else "refused for another cause"
    return "taken"


with Keyboard.of_sample() as keyboard:
    keyboard.bios(True)
    keyboard.run(160_000)
    print(*report(keyboard), sep="\n")
    saved = keyboard.save()
    first = type_h(keyboard)
    print("saved", *first, sep="\n")
with Keyboard.of_saved(saved) as loaded:
    second = type_h(loaded)
    print("loaded", *second, sep="\n")
print("of another version:", refusal(saved[:7] + bytes([saved[7] + 1]) + saved[8:]))
sys.exit(first != second)
