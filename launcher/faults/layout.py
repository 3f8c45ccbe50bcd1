"""Layouts: where an entry is, and what it probably should say."""
from __future__ import annotations

import re
from functools import lru_cache
from pathlib import Path

from .near import meant

try:
    import tomllib
except ModuleNotFoundError:  # before Python 3.11
    tomllib = None

SAMPLE = Path(__file__).resolve().parent.parent.parent / "examples/us84.toml"
TOP = ["format", "name", "rate", "debounce", "key"]
FIRST = ["key", "column", "row", "sends"]
SECOND = [*FIRST, "fn", "fn_sends", "make_only"]
YES_OR_NO = ["debounce", "fn", "make_only"]
FLAG = re.compile(r"""\s*["']?\w+["']?\s*=\s*(yes|no|on|off|y|n|true|false)\b""", re.IGNORECASE)
HEADER = re.compile(r"""\s*\[\[\s*["']?key["']?\s*\]\]""")


@lru_cache(maxsize=1)
def names():
    """The names of all keys, which the sample layout has."""
    return re.findall(r'^key = "([^"]+)"', SAMPLE.read_text(encoding="utf-8"), re.MULTILINE)


@lru_cache(maxsize=1)
def tree(data):
    """What a file says, or None if it can't be read here."""
    try:
        return tomllib.loads(data.decode("utf-8-sig")) if tomllib else None
    except (ValueError, RecursionError):
        return None


def begins(fault):
    """The lines at which the entries begin."""
    return [number for number, text in enumerate(fault.lines, 1) if HEADER.match(text)]


def span(fault):
    """The first line of the entry and the one after its last; those of the top level for entry 0."""
    at = [1, *begins(fault), len(fault.lines) + 1]
    return (at[fault.at], at[fault.at + 1]) if fault.at + 1 < len(at) else None


def entry(fault, number):
    found = tree(fault.data)
    try:
        return dict(found["key"][number - 1] if number else found)
    except (TypeError, KeyError, IndexError, ValueError):
        return {}


def line_of(fault, name):
    """The line of a field in the faulty entry, or of a table outside all entries, with its text, or None."""
    within, quoted = span(fault), rf"""["']?{re.escape(name)}["']?\s*"""
    form = re.compile(rf"\s*({quoted}=|\[\[?\s*{quoted}\])" if not fault.at else rf"\s*{quoted}=")
    for number in range(*within) if within else ():
        if form.match(fault.lines[number - 1]):
            return number, fault.lines[number - 1]
    return None


def suspects(fault):
    """The fields that the fault can be about, the likeliest first."""
    here = entry(fault, fault.at)
    known = TOP if fault.at == 0 else SECOND if entry(fault, 0).get("format") == 2 else FIRST
    return {
        2: [it for it in here if it not in known],
        4: [it for it, value in here.items() if it in known and not of_kind(it, value, fault.at)],
        5: ["format"],
        6: [it for it in ("key", "sends", "fn_sends") if it in here and here[it] not in names()],
        7: [it for it, most in (("column", 11), ("row", 7)) if not (isinstance(here.get(it), int) and 0 <= here[it] <= most)],
        9: ["rate"],
        11: ["key"],
        12: ["fn"],
        13: ["sends", "fn_sends", "make_only"],
    }.get(fault.number, [])


def of_kind(name, value, at):
    wanted = {"format": int, "rate": int, "name": str, "column": int, "row": int, **dict.fromkeys(YES_OR_NO, bool)}
    kind = wanted.get(name, str) if at or name != "key" else list
    return isinstance(value, kind) and not (kind is int and isinstance(value, bool))


def unreadable(fault):
    """The line at which TOML ends to be readable, with the reason, or None."""
    try:
        if tomllib:
            tomllib.loads(fault.data.decode("utf-8-sig"))
    except UnicodeDecodeError as why:
        return fault.data[: why.start].count(b"\n") + 1, "the file isn't UTF-8"
    except (ValueError, RecursionError) as why:
        found = re.search(r"(.*) \(at line (\d+), column \d+\)", str(why))
        if found:
            return int(found[2]), found[1][0].lower() + found[1][1:]
        if "end of document" in str(why):
            return len([it for it in fault.lines if it]), str(why)[0].lower() + str(why)[1:]
    return None


def place(fault):
    if fault.number == 1:
        found = unreadable(fault)
        return (f"line {found[0]}", fault.lines[found[0] - 1]) if found else ("the whole file", "")
    for name in suspects(fault):
        if found := line_of(fault, name):
            return (f"entry {fault.at}, line {found[0]}" if fault.at else f"line {found[0]}"), found[1]
    if not fault.at:
        return "top level", ""
    within = span(fault)
    if not within:
        return f"entry {fault.at}", ""
    named = entry(fault, fault.at).get("key")
    return f"entry {fault.at}, line {within[0]}", f'key = "{named}"' if named else fault.lines[within[0] - 1]


def hints(fault):
    here = entry(fault, fault.at)
    if fault.number == 1:
        found = unreadable(fault)
        return [flag(fault.lines[found[0] - 1]) or found[1]] if found else []
    of = {2: field, 3: missing, 4: wrong_kind, 6: unknown_key, 8: taken, 11: named_before, 12: second_fn}
    if fault.number in of:
        return of[fault.number](fault, here)
    return {
        5: ["format = 1, or format = 2 for a layout with an Fn key"],
        7: ["column is 0 to 11 and row 0 to 7"],
        9: ["rate is 0 to 127"],
        10: ["each key is an entry [[key]] with key, column and row"],
    }.get(fault.number, [])


def flag(line):
    """What a line should say that has yes, True or the like for true or false, or None."""
    found = FLAG.match(line)
    return found and f"did you mean {line[: found.start(1)].strip()} {'true' if found[1].lower() in ('yes', 'on', 'y', 'true') else 'false'}?"


def field(fault, here):
    known = TOP if fault.at == 0 else SECOND if entry(fault, 0).get("format") == 2 else FIRST
    for name in suspects(fault)[:1]:
        if fault.at and name in SECOND:
            return [f"{name} needs format = 2"]
        if fault.at and name in ("format", "rate", "debounce"):
            return [f"{name} is a field of the whole layout: it comes before the first line [[key]]"]
        if not fault.at and name in SECOND:
            return [f"{name} is a field of an entry: it comes after a line [[key]]"]
        return meant(name, known, f"the fields are {', '.join(known)}")
    return []


def missing(fault, here):
    wanted = ["key", "column", "row"] if fault.at else ["format", "key"]
    left = [it for it in wanted if it not in here]
    return [f"it has no {' and no '.join(left)}"] if left else []


def wrong_kind(fault, _here):
    for name in suspects(fault)[:1]:
        if name in YES_OR_NO:
            return [f"{name} is true or false, without quotes"]
        whole = name in ("format", "rate", "column", "row")
        return [f"{name} is {'a whole number, without quotes' if whole else 'a list of tables [[key]]' if not fault.at and name == 'key' else 'a text in quotes'}"]
    return []


def unknown_key(fault, here):
    for name in suspects(fault)[:1]:
        return meant(str(here[name]), names(), "docs/FORMATS.md lists the names of all keys")
    return []


def earlier(fault, is_it):
    """The line of the first entry before the faulty one for which this holds, with the entry."""
    at = begins(fault)
    for number in range(1, fault.at):
        other = entry(fault, number)
        if other and is_it(other):
            return f"entry {number}" + (f", line {at[number - 1]}" if number <= len(at) else ""), other
    return None


def taken(fault, here):
    same = earlier(fault, lambda it: (it.get("column"), it.get("row")) == (here.get("column"), here.get("row")))
    return [f"{same[0]} has column {here['column']} and row {here['row']} for {same[1].get('key')}"] if here and same else []


def named_before(fault, here):
    same = earlier(fault, lambda it: it.get("key") == here.get("key"))
    name = here.get("key")
    return [f'{same[0]} has the name {name}; a second key that sends it has another name, and sends = "{name}"'] if same else []


def second_fn(fault, _here):
    first = earlier(fault, lambda it: it.get("fn") is True)
    return [f"the Fn key is {first[1].get('key')} ({first[0]})"] if first else []
