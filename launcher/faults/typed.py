"""Texts that `type` can't type."""
from __future__ import annotations


def place(fault):
    before = fault.data[: fault.at - 1]
    line, column = before.count(b"\n") + 1, fault.at - 1 - (before.rfind(b"\n") + 1) + 1
    return f"byte {fault.at} (line {line}, column {column})", ""


def hints(fault):
    code = fault.data[fault.at - 1]
    if code >= 0x80:
        return [f"the byte is {code:02X}: the keyboard has the characters of ASCII alone"]
    name = chr(code) if chr(code).isprintable() else f"{code:02X}"
    return [f"the character is {name}; no entry sends a key with it, with or without the layout's shift key"]
