"""Key files: what a faulty line probably should be."""
from __future__ import annotations

import re

from .near import meant

# How many fields a word has after it, and what they are.
WORDS = {
    "press": "the name of a key",
    "release": "the name of a key",
    "write60": "a byte of two hexadecimal digits",
    "write64": "a byte of two hexadecimal digits",
    "flip": "the number of a bit, 1 to 9",
    "read60": "",
    "mask": "",
    "unmask": "",
    "take": "",
    "status": "",
    "end": "",
}
OTHERS = {"down": "press", "up": "release", "keydown": "press", "keyup": "release", "hold": "press", "read": "read60", "write": "write60"}
# The fewest cycles between two changes of a key, and between the first and the fifth of five changes.
LEAST = 2240
CYCLES_OF_A_MS = 400


def place(fault):
    lines = [it for it in fault.lines if it]
    if fault.at > len(lines) and not fault.text:
        return f"line {fault.at}, its end", ""
    return f"line {fault.at}", fault.text


def hints(fault):
    fields = fault.text.removeprefix("\ufeff").split()
    of = {1: shape, 2: word, 3: key, 4: order, 5: twice, 6: soon, 7: soon, 8: ending, 9: after_end}
    return [*of.get(fault.number, lambda *_: [])(fields, fault)]


def shape(fields, _fault):
    stamp = fields[0] if fields else ""
    if not re.fullmatch(r"\d{1,9}(ms)?", stamp):
        if re.fullmatch(r"\d+(ms)?", stamp):
            return ["a stamp has at most nine digits"]
        if re.fullmatch(r"[a-z]\w*", stamp):
            return ["a line begins with its stamp, as in 1000 press a"]
        return [f"{stamp} is no stamp: it is a whole number of cycles of 2.5 microseconds, or one with ms right after it, as in 400 or 1ms"]
    if len(fields) == 1:
        return [f"a word follows the stamp: {', '.join(WORDS)}"]
    name, given = fields[1], fields[2:]
    takes = WORDS.get(name)
    if takes is None:
        return []
    if takes:
        return [f"after {name} comes {takes}" + (", and nothing else" if len(given) > 1 else "")]
    return [f"nothing comes after {name}"]


def word(fields, _fault):
    name = fields[1] if len(fields) > 1 else ""
    if name == "ms":
        return [f"there is no blank before ms: {fields[0]}ms"]
    if name.lower() in OTHERS:
        return [f"did you mean {OTHERS[name.lower()]}?"]
    return meant(name, WORDS, f"the words are {', '.join(WORDS)}")


def keys_of(fault):
    return re.findall(r"""^[^#\n]*?\bkey\s*=\s*["']([^"'\n]*)["']""", fault.files.get("layout", b"").decode(errors="replace"), re.MULTILINE)


def key(fields, fault):
    return meant(fields[2] if len(fields) > 2 else "", keys_of(fault), "a key is named as the layout names it, after key =")


def stamp_of(text):
    found = re.match(r"\s*(\d+)(ms)?\s", text + " ")
    return int(found[1]) * (CYCLES_OF_A_MS if found[2] else 1) if found else None


def order(_fields, fault):
    first, second = fault.stamps
    return [f"the event before it is at {first:,}, this one at {second:,}"]


def twice(fields, fault):
    for number in range(fault.at - 1, 0, -1):
        earlier = fault.lines[number - 1].split()
        if len(fields) > 2 and earlier[1:3] == fields[1:3]:
            other = {"press": "release", "release": "press"}[fields[1]]
            return [f"line {number} has the same; before this one there has to be a {other} {fields[2]}"]
    return [f"no line before it has press {fields[2]}"] if fields[1:2] == ["release"] and len(fields) > 2 else []


def soon(_fields, fault):
    first, second = fault.stamps
    return [f"the earlier change is at {first:,} and this one at {second:,}: it can be at {first + LEAST:,} or later"]


def ending(_fields, fault):
    last = max((it for it in map(stamp_of, fault.lines) if it is not None), default=0)
    return [f"add a last line that says when the run ends, as in {last + 400 * CYCLES_OF_A_MS} end"]


def after_end(_fields, _fault):
    return ["end is the last line, but for blank ones and comments"]
