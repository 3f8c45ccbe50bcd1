"""The functions of libkbd48 with their types, as kbd48.h declares them."""
from __future__ import annotations

import ctypes as c
import os


class Handle(c.Structure):
    _fields_ = [("at", c.c_void_p)]


class Fault(c.Structure):
    _fields_ = [("position", c.c_uint32), ("number", c.c_uint32)]


class Spot(c.Structure):
    _fields_ = [("counter", c.c_uint16), ("byte", c.c_uint8)]


class Pushed(c.Structure):
    _fields_ = [("stamp", c.c_uint64), ("place", c.c_uint8), ("down", c.c_bool)]


class Keys(c.Structure):
    _fields_ = [("ready", c.c_uint64), ("edges", Pushed * 160), ("down", c.c_bool * 96), ("count", c.c_uint8)]


class Help(c.Structure):
    _fields_ = [("seabios", c.c_bool), ("bochs", c.c_bool), ("parameter", c.c_bool), ("last", c.c_uint8)]


class Item(c.Structure):
    _fields_ = [("cycle", c.c_uint64), ("kind", c.c_uint8), ("value", c.c_uint16)]


class Registers(c.Structure):
    _fields_ = [(name, c.c_uint8) for name in ("status", "output", "command_byte", "output_port")]


class Processor(c.Structure):
    _fields_ = [
        ("counter", c.c_uint16),
        ("byte", c.c_uint8),
        ("a", c.c_uint8),
        *((name, c.c_bool) for name in ("carry", "half_carry", "f0", "f1", "register_bank", "memory_bank")),
        *((name, c.c_uint8) for name in ("stack", "t", "prescaler", "counts")),
        *((name, c.c_bool) for name in ("timer_flag", "external_on", "timer_on", "request", "service")),
        *((name, c.c_uint8) for name in ("p1", "p2", "bus")),
    ]


def _to(kind):
    return c.POINTER(kind)


# The parameters after the handle.
PARAMETERS = {
    "close": [],
    "open_sample": [],
    "open_ready_sample": [],
    "copy": [_to(Handle)],
    "save": [c.c_char_p, c.c_size_t],
    "load": [c.c_char_p, c.c_size_t],
    "key": [c.c_uint8, c.c_bool],
    "run": [c.c_uint64, c.c_bool, _to(c.c_uint64), _to(Spot)],
    "run_keys": [_to(Keys), c.c_uint64, c.c_bool, _to(c.c_uint64), _to(Spot)],
    "run_to": [c.c_uint8, c.c_uint16, c.c_uint64, c.c_uint64, _to(c.c_uint8), _to(c.c_uint64), _to(Spot)],
    "write": [c.c_uint8, c.c_uint8],
    "read60": [_to(c.c_uint8)],
    "status": [_to(c.c_uint8)],
    "bios": [c.c_bool],
    "flip": [c.c_uint8],
    "power_on": [c.c_uint8],
    "take": [_to(c.c_uint16)],
    "next": [_to(Item)],
    "interrupt": [_to(c.c_bool)],
    "lost": [_to(c.c_uint64)],
    "rises": [_to(c.c_uint64)],
    "lights": [_to(c.c_uint8)],
    "wires": [_to(c.c_bool), _to(c.c_bool)],
    "pulls": [_to(c.c_uint8), _to(c.c_uint8)],
    "cycle": [_to(c.c_uint64)],
    "look": [_to(Registers)],
    "waiting": [_to(c.c_uint8), _to(c.c_uint8)],
    "column": [c.c_uint8, _to(c.c_uint8)],
    "inside": [_to(Processor)],
    "cell": [c.c_uint8, _to(c.c_uint8)],
}


# The parameters of the calls that have no handle.
OTHERS = {
    "open_layout": [c.c_char_p, c.c_size_t, _to(Handle), _to(Fault)],
    "open_hex": [c.c_char_p, c.c_size_t, _to(Handle), _to(Fault)],
    "open_ready_layout": [c.c_char_p, c.c_size_t, _to(Handle), _to(Fault)],
    "open_ready_hex": [c.c_char_p, c.c_size_t, _to(Handle), _to(Fault)],
    "layout_key": [c.c_char_p, c.c_size_t, c.c_char_p, c.c_size_t, _to(c.c_uint8)],
    "sample_key": [c.c_char_p, c.c_size_t, _to(c.c_uint8)],
    "queue_key": [_to(Keys), c.c_uint64, c.c_uint8, c.c_bool],
    "release_all": [_to(Keys), c.c_uint64],
    "queued": [_to(Keys), _to(c.c_uint8)],
    "save_keys": [_to(Keys), c.c_char_p, c.c_size_t],
    "load_keys": [_to(Keys), c.c_char_p, c.c_size_t],
}


# The calls that return no status: what each returns, and its parameters.
HELPS = {
    "help_write": (c.c_uint8, [_to(Help), c.c_uint8, c.c_uint8]),
    "help_read": (c.c_bool, [_to(Help), c.c_uint8]),
}


def opened(path: str) -> c.CDLL:
    """The library at a path, its functions with their types."""
    library = c.CDLL(path)
    for name, parameters in PARAMETERS.items():
        function = getattr(library, f"kbd48_{name}")
        function.argtypes, function.restype = [_to(Handle), *parameters], c.c_int32
    for name, parameters in OTHERS.items():
        function = getattr(library, f"kbd48_{name}")
        function.argtypes, function.restype = parameters, c.c_int32
    for name, (returned, parameters) in HELPS.items():
        function = getattr(library, f"kbd48_{name}")
        function.argtypes, function.restype = parameters, returned
    return library


# The library lies beside this file. KBD48_LIBRARY names another.
LIBRARY = opened(os.environ.get("KBD48_LIBRARY") or os.path.join(os.path.dirname(os.path.abspath(__file__)), "libkbd48.so.1"))
