"""The keyboard of the IBM PC/AT as an object: the proved C library kbd48, called through ctypes.

    >>> from kbd48 import Keyboard
    >>> with Keyboard.of_layout(open("us84.toml", "rb").read()) as keyboard:
    ...     keyboard.run(400_000, watched=True)     # a second at most, or until IRQ 1 rises
    ...     hex(keyboard.read60())
    Ran(cycles=131680, rose=True)
    '0xaa'

Keys and port accesses go in as they happen. Bytes, the interrupt line, the lights and the items of the log come out. Time
is counted in cycles of 2.5 microseconds, 400,000 a second; it passes only in calls. Of this module nothing is proved: it
hands numbers to the library, whose functions are. One thread at a time may call a keyboard.
"""
from .keyboard import (
    VERSION,
    Error,
    Help,
    Item,
    ItemKind,
    Keyboard,
    KeysRan,
    Processor,
    Pulls,
    Ran,
    Registers,
    Status,
    Stop,
    Stopped,
    Stuck,
    TextFault,
    Waiting,
    Wires,
)

__version__ = VERSION
__all__ = [
    "Error",
    "Help",
    "Item",
    "ItemKind",
    "Keyboard",
    "KeysRan",
    "Processor",
    "Pulls",
    "Ran",
    "Registers",
    "Status",
    "Stop",
    "Stopped",
    "Stuck",
    "TextFault",
    "VERSION",
    "Waiting",
    "Wires",
]
