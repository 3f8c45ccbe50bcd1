"""Value change dumps that `capture` can't read."""
from __future__ import annotations

import re

# A signal of the header: its width, its code and its name.
SIGNAL = re.compile(rb"\$var\s+\S+\s+(\d+)\s+(\S+)\s+(\S+)[^$]*\$end")
FORM, NO_CLOCK, NO_DATA, UNIT, BACK, UNKNOWN = 1, 6, 7, 2, 8, 9
MOST_NAMES = 8
# The names that need not be said: of the clock's signal, and of the data wire's.
USUAL = "clock", "data"
# So many bytes of a file are read for its header.
MOST_HEADER = 65536


def signals(data):
    """The names of the signals of one bit, in their order."""
    header = data[: data.find(b"$enddefinitions") + 1]
    return [name.decode(errors="replace") for width, _, name in SIGNAL.findall(header) if width == b"1"]


def signals_of(name):
    """Those of a file; none if it can't be read."""
    try:
        with open(name, "rb") as file:
            return signals(file.read(MOST_HEADER))
    except OSError:
        return []


def hints(fault):
    """What is probably meant."""
    if fault.number in (NO_CLOCK, NO_DATA):
        names = signals(fault.data)
        if len(names) < 2:
            return ["the dump has fewer than two signals of one bit: record both wires"]
        listed = ", ".join(names[:MOST_NAMES]) + (" .." if len(names) > MOST_NAMES else "")
        return [f"its signals are {listed}: name the clock and the data wire after the file, as in capture FILE {names[0]} {names[1]}"]
    if fault.number == FORM and b"$enddefinitions" not in fault.data:
        return ["what an analyser saves as .csv or .sr is no dump: examples/captured FILE -o DUMP makes one of it"]
    if fault.number == UNIT:
        return ["export the capture with a unit from 1 ns to 10 us"]
    if fault.number == UNKNOWN:
        return ["x and z mean that the analyser saw no level: only 0 and 1 are read"]
    return []
