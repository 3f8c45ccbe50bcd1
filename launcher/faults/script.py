"""Scripts of `debug` and `probe`: what a faulty line probably should be."""
from __future__ import annotations

from .near import meant

FORMS = {
    "step": "step K, K a number of steps",
    "go": "go K, K a number of steps",
    "show": "show, alone",
    "ram": "ram A, A two hexadecimal digits below 80",
    "arm": "arm P A B, with A of three hexadecimal digits and B of two",
    "tell": "tell P, P the number of a probe",
    "drop": "drop P, P the number of a probe",
}


def hints(fault):
    text = fault.text.removeprefix("\ufeff")
    fields = text.split()
    if fault.number == 2:
        return ["there are four probes, 0 to 3, and each drop before it takes one away"]
    if not fields:
        return []
    if fields[0] not in FORMS:
        if fields[0].startswith(("#", ";")):
            return ["a script has no comments"]
        return meant(fields[0], FORMS, f"the lines are {', '.join(FORMS)}")
    if " ".join(fields) != text:
        return ["one blank is between two words, none before the first and none after the last"]
    return [f"the line is {FORMS[fields[0]]}"]
