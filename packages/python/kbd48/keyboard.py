"""A keyboard as an object, and what its calls answer."""
from __future__ import annotations

import ctypes as c
from dataclasses import dataclass
from enum import IntEnum, IntFlag
from typing import Any, Callable, Iterator, NamedTuple, Optional, Tuple, Type, Union

from . import library
from .library import LIBRARY

VERSION = "@VERSION@"

SAVED = 3077  # how many bytes a saved keyboard has
SAVED_KEYS = 1629  # how many a saved queue has


class Status(IntEnum):
    """What a function of the library answers."""

    DONE = 0
    NOT_OPEN = 1
    NO_MEMORY = 2
    BAD_TEXT = 3
    TOO_LONG = 4
    NO_SUCH_PLACE = 5
    NO_SUCH_PORT = 6
    FULL = 7
    STUCK = 8
    EARLY = 9
    OVER = 10
    NO_WORD = 11
    ROSE = 12
    NO_SUCH_CELL = 13
    NOTHING_SAID = 14
    LOST = 15
    REPEATED = 16
    KEY_DUE = 17
    NO_SUCH_KEY = 18
    NO_SUCH_BIT = 19
    BAD_SIZE = 20
    NOT_SAVED = 21
    OTHER_VERSION = 22
    BAD_STATE = 23


TEXTS = {
    Status.DONE: "it was done",
    Status.NOT_OPEN: "the keyboard is not open",
    Status.NO_MEMORY: "there is no memory left",
    Status.BAD_TEXT: "the text has a fault",
    Status.TOO_LONG: "the text is too long",
    Status.NO_SUCH_PLACE: "the matrix has the places 0 to 95",
    Status.NO_SUCH_PORT: "the controller has the ports 60h and 64h",
    Status.FULL: "there is no room",
    Status.STUCK: "the processor is at a byte that begins no instruction",
    Status.EARLY: "the processor stuck before stamp 0",
    Status.OVER: "the count of cycles is at its end",
    Status.NO_WORD: "there is no word",
    Status.ROSE: "the interrupt line rose",
    Status.NO_SUCH_CELL: "data memory has the cells 0 to 127",
    Status.NOTHING_SAID: "nothing was said",
    Status.LOST: "more was said than is kept",
    Status.REPEATED: "the key is so already",
    Status.KEY_DUE: "the next edge is due",
    Status.NO_SUCH_KEY: "no key has this name",
    Status.NO_SUCH_BIT: "noise turns round the bits 1 to 9 of a frame",
    Status.BAD_SIZE: "that is not the size of a saved keyboard or queue",
    Status.NOT_SAVED: "these bytes are no saved keyboard or queue",
    Status.OTHER_VERSION: "this was saved in another version",
    Status.BAD_STATE: "no keyboard or queue is in such a state",
}


class ItemKind(IntEnum):
    """What an item says: what the log does, or a byte that the keyboard sent over the wires, or was given."""

    PORT = 0
    READ = 1
    WORD = 2
    BEEP = 3
    OVERRUN = 4
    LIGHTS = 5
    TAKEN = 6
    TAKEN_NONE = 7
    STATUS = 8
    OUTPUT = 9
    PULSE = 10
    BROKE = 11
    PAUSE = 12
    RESUME = 13
    PRINT = 14
    BOOT = 15
    SYS_MAKE = 16
    SYS_BREAK = 17
    SENT = 18
    GIVEN = 19


class Error(Exception):
    """A call that can't be done. `status` is what the library answered."""

    def __init__(self, status: Status, text: Optional[str] = None):
        super().__init__(text or TEXTS.get(status, status.name))
        self.status = status


class TextFault(Error):
    """A layout or a HEX text with a fault: `position` is the entry or the line, counted from 1 (0 is the layout as a whole),
    and `number` the rule that it breaks (docs/FORMATS.md)."""

    def __init__(self, position: int, number: int):
        super().__init__(Status.BAD_TEXT, f"the text has fault {number} at entry or line {position}")
        self.position, self.number = position, number


class Stuck(Error):
    """The keyboard's processor is at a byte that begins no instruction: `counter` is its program counter, `byte` the byte there."""

    def __init__(self, counter: int, byte: int, cycles: int):
        super().__init__(Status.STUCK, f"the keyboard's processor is stuck at {counter:03X}, at the byte {byte:02X}")
        self.counter, self.byte, self.cycles = counter, byte, cycles


class Ran(NamedTuple):
    """How many cycles a run made, and whether the interrupt line rose, which ends a watched run."""

    cycles: int
    rose: bool


class KeysRan(NamedTuple):
    """How many cycles a run with the queue made, how often the interrupt line rose, and whether that ended it."""

    cycles: int
    rises: int
    rose: bool


class Stop(IntFlag):
    """What a run may stop for: a rise of the interrupt line, something said, a wire that changed, a value of the program counter."""

    RISE = 1
    ITEM = 2
    WIRES = 4
    COUNTER = 8


class Stopped(NamedTuple):
    """How many cycles a run made, and what its last step came to; no Stop if a limit ended it."""

    cycles: int
    met: Stop


class Item(NamedTuple):
    """What happened: the cycle in which it did, what it was, and its byte or word, or 0."""

    cycle: int
    kind: ItemKind
    value: int

    @property
    def stamp(self) -> int:
        """The cycle as key files count it."""
        return self.cycle - 4096


class Wires(NamedTuple):
    """The levels of the two wires, true for high."""

    clock: bool
    data: bool


class Pulls(NamedTuple):
    """Which wires each side pulls: 1 the clock, 2 data."""

    keyboard: int
    controller: int


class Waiting(NamedTuple):
    """How many edges of keys wait for a step, and how many words in the buffer of INT 09h."""

    edges: int
    words: int


class Registers(NamedTuple):
    """The controller's registers: what ports 0x64 and 0x60 would read, the command byte, and the output port."""

    status: int
    output: int
    command_byte: int
    output_port: int


class Processor(NamedTuple):
    """The keyboard's processor, an 8049. `counts` is 0 if the timer is off, 1 for machine cycles, 2 for falls of T1."""

    counter: int
    byte: int
    a: int
    carry: bool
    half_carry: bool
    f0: bool
    f1: bool
    register_bank: bool
    memory_bank: bool
    stack: int
    t: int
    prescaler: int
    counts: int
    timer_flag: bool
    external_on: bool
    timer_on: bool
    request: bool
    service: bool
    p1: int
    p2: int
    bus: int


def _unsigned(value: int, bits: int, what: str) -> int:
    """A number that fits, since ctypes would cut it."""
    if not 0 <= value < 1 << bits:
        raise ValueError(f"{what} is from 0 to {(1 << bits) - 1}, and not {value}")
    return value


@dataclass
class Help:
    """Help for two BIOSes. What the guest sees with it isn't the machine's. With `seabios` the byte after F0 is replaced by EF;
    with `bochs` the self-test after FF takes the guest no time. `parameter` is whether the controller awaits a parameter at
    port 0x60, and `last` the last byte that the keyboard was given, or 0. Keep one for each keyboard, and all four beside a save."""

    seabios: bool = False
    bochs: bool = False
    parameter: bool = False
    last: int = 0

    def write(self, port: int, byte: int) -> int:
        """The byte to write in place of the guest's. Call it before each write for the guest. If that write finds no room and you
        drop the byte, go on with a copy of what this was before (copy.copy)."""
        return self._said("help_write", _unsigned(port, 8, "a port"), _unsigned(byte, 8, "a byte"))

    def read(self, byte: int) -> bool:
        """Whether to run the keyboard on, watched, until the line rises. Call it after the guest has read this byte from port
        0x60."""
        return self._said("help_read", _unsigned(byte, 8, "a byte"))

    def _said(self, name: str, *words: int) -> Any:
        inside = library.Help(self.seabios, self.bochs, self.parameter, _unsigned(self.last, 8, "a byte"))
        said = getattr(LIBRARY, f"kbd48_{name}")(inside, *words)
        self.parameter, self.last = inside.parameter, inside.last
        return said


class Keyboard:
    """A keyboard with its board, its controller and INT 09h. `of_layout` and `of_hex` open one; `close`, or the end of a
    `with` block, frees it. Between two calls it is between two steps; a step is one instruction of its processor, one
    cycle or two."""

    def __init__(self) -> None:
        self._handle = library.Handle()
        self._keys = library.Keys()

    @classmethod
    def of_layout(cls, text: Union[str, bytes], ready: bool = False) -> Keyboard:
        """A keyboard with the firmware of this layout (TOML), at stamp 0; or, if it is to be ready, with its power-on test
        over and its AA in the controller's output buffer."""
        return cls._of(LIBRARY.kbd48_open_ready_layout if ready else LIBRARY.kbd48_open_layout, text)

    @classmethod
    def of_hex(cls, text: Union[str, bytes], ready: bool = False) -> Keyboard:
        """A keyboard with this program (Intel HEX), at stamp 0, or stuck before that; `ready` is as for a layout."""
        return cls._of(LIBRARY.kbd48_open_ready_hex if ready else LIBRARY.kbd48_open_hex, text)

    @classmethod
    def of_sample(cls, ready: bool = False) -> Keyboard:
        """A keyboard of the sample layout, us84, at stamp 0; `ready` is as for a layout."""
        keyboard = cls()
        keyboard._done("open_ready_sample" if ready else "open_sample")
        return keyboard

    @classmethod
    def of_saved(cls, data: bytes) -> Keyboard:
        """A keyboard in the state that these bytes mean, with no edge in its queue."""
        keyboard = cls()
        keyboard._done("load", data, len(data))
        return keyboard

    @staticmethod
    def place_of(name: str, layout: Union[str, bytes, None] = None) -> int:
        """The place of a key by its name (`h`, `lshift`), in a layout's text or in the sample layout."""
        key, place = name.encode(), c.c_uint8()
        if layout is None:
            status = LIBRARY.kbd48_sample_key(key, len(key), place)
        else:
            data = layout.encode() if isinstance(layout, str) else bytes(layout)
            status = LIBRARY.kbd48_layout_key(data, len(data), key, len(key), place)
        _need(Status(status))
        return place.value

    @classmethod
    def _of(cls, call: Callable[..., int], text: Union[str, bytes]) -> Keyboard:
        data = text.encode() if isinstance(text, str) else bytes(text)
        keyboard, fault = cls(), library.Fault()
        status = Status(call(data, len(data), keyboard._handle, fault))
        if status == Status.BAD_TEXT:
            raise TextFault(fault.position, fault.number)
        _need(status)
        return keyboard

    def copy(self) -> Keyboard:
        """A second keyboard in the same state. The same calls give the same answers."""
        other = type(self)()
        self._done("copy", other._handle)
        other._keys = library.Keys.from_buffer_copy(self._keys)
        return other

    __copy__ = copy

    def save(self) -> bytes:
        """The state as 3,077 bytes, which `of_saved` reads. The edges that wait in the queue are not among them: `save_queue`
        has these."""
        buffer = c.create_string_buffer(SAVED)
        self._done("save", buffer, SAVED)
        return buffer.raw

    def close(self) -> None:
        """Frees the keyboard. To close it again does nothing."""
        LIBRARY.kbd48_close(self._handle)

    def __enter__(self) -> Keyboard:
        return self

    def __exit__(self, *_: Any) -> None:
        self.close()

    def __del__(self) -> None:
        self.close()

    # Calls that make steps, or hand something in.

    def power_on(self, fill: int = 0) -> None:
        """Switches the keyboard off and on again, with the program that it has. At power-on its data memory, accumulator and
        timer hold this byte. It is at stamp 0 then, with no edge in its queue."""
        self._done("power_on", _unsigned(fill, 8, "a byte"))
        self._keys = library.Keys()

    def key(self, place: int, down: bool) -> bool:
        """The key at a place, 0 to 95 (eight times its column and its row), goes down or up, before the next step. False
        if four edges wait already: run a step first."""
        return self._done("key", _unsigned(place, 8, "a place"), down, unless=Status.FULL)

    def run(self, cycles: int, watched: bool = False) -> Ran:
        """Makes steps until so many cycles have passed, or one more; if watched, until the interrupt line rises."""
        passed, spot = c.c_uint64(), library.Spot()
        status = self._call("run", _unsigned(cycles, 64, "a number of cycles"), watched, passed, spot)
        if status == Status.STUCK:
            raise Stuck(spot.counter, spot.byte, passed.value)
        if status != Status.ROSE:
            _need(status)
        return Ran(passed.value, status == Status.ROSE)

    def queue_key(self, place: int, down: bool) -> bool:
        """The key at a place goes down or up after all edges that wait in this keyboard's queue, which hands each over when
        it can be seen. A key that is so already changes nothing. False if it goes down and 64 edges wait."""
        status = Status(LIBRARY.kbd48_queue_key(self._keys, self.cycle, _unsigned(place, 8, "a place"), down))
        if status not in (Status.FULL, Status.REPEATED):
            _need(status)
        return status != Status.FULL

    def release_all(self) -> None:
        """Each key that is down goes up, after all edges that wait."""
        LIBRARY.kbd48_release_all(self._keys, self.cycle)

    @property
    def queued(self) -> int:
        """How many edges wait in the queue, at most 160."""
        count = c.c_uint8()
        LIBRARY.kbd48_queued(self._keys, count)
        return count.value

    @property
    def queue(self) -> bytes:
        """The queue as 2,672 bytes, to be kept beside what is kept of the keyboard: an empty one takes all keys for up. Set it
        to what it was."""
        return bytes(self._keys)

    @queue.setter
    def queue(self, data: bytes) -> None:
        if len(data) != c.sizeof(library.Keys):
            raise ValueError(f"a queue has {c.sizeof(library.Keys)} bytes")
        self._keys = library.Keys.from_buffer_copy(data)

    def save_queue(self) -> bytes:
        """The queue as 1,629 bytes, the same on every machine, which `load_queue` reads."""
        buffer = c.create_string_buffer(SAVED_KEYS)
        LIBRARY.kbd48_save_keys(self._keys, buffer, SAVED_KEYS)
        return buffer.raw

    def load_queue(self, data: bytes) -> None:
        """Puts the queue that these bytes mean in the place of this keyboard's. Other bytes are refused, and it stays."""
        _need(Status(LIBRARY.kbd48_load_keys(self._keys, data, len(data))))

    def run_keys(self, cycles: int, watched: bool = False) -> KeysRan:
        """Runs as `run` does, and hands over each edge of the queue when it is due."""
        made, rises, status = 0, 0, Status.KEY_DUE
        while status == Status.KEY_DUE:
            passed, spot = c.c_uint64(), library.Spot()
            left = _unsigned(cycles, 64, "a number of cycles") - made
            status = self._call("run_keys", self._keys, left, watched, passed, spot)
            made, rises = made + passed.value, rises + (self.rises if status != Status.NOT_OPEN else 0)
        if status == Status.STUCK:
            raise Stuck(spot.counter, spot.byte, made)
        if status != Status.ROSE:
            _need(status)
        return KeysRan(made, rises, status == Status.ROSE)

    def run_to(self, stop: Stop, cycles: int, steps: int = (1 << 64) - 1, at: int = 0) -> Stopped:
        """Makes steps until one comes to what `stop` asks for, or until so many cycles have passed or steps were made. `at`
        is the counter of Stop.COUNTER; 7 is where a tick of the firmware begins."""
        met, passed, spot = c.c_uint8(), c.c_uint64(), library.Spot()
        status = self._call("run_to", int(stop), _unsigned(at, 16, "a counter"), _unsigned(cycles, 64, "a number of cycles"),
                            _unsigned(steps, 64, "a number of steps"), met, passed, spot)
        if status == Status.STUCK:
            raise Stuck(spot.counter, spot.byte, passed.value)
        _need(status)
        return Stopped(passed.value, Stop(met.value))

    def write(self, port: int, byte: int) -> bool:
        """The host writes a byte to port 0x60 or 0x64, in one step. False, and no step, if the input buffer is full."""
        return self._done("write", _unsigned(port, 8, "a port"), _unsigned(byte, 8, "a byte"), unless=Status.FULL)

    def read60(self) -> int:
        """The host reads port 0x60, in one step."""
        return self._shown("read60", c.c_uint8)

    def status(self) -> int:
        """The host reads the status at port 0x64, in one step. `registers` shows it without a step."""
        return self._shown("status", c.c_uint8)

    def bios(self, on: bool) -> None:
        """INT 09h of this project reads each byte, or no longer, from the next step on. One step. At first it is off."""
        self._done("bios", on)

    def flip(self, bit: int) -> None:
        """Noise turns round a bit of the next frame that the keyboard begins: a data bit, 1 to 8, or the parity, 9. One
        step. Another call before that frame replaces it."""
        self._done("flip", _unsigned(bit, 8, "a bit"))

    def take(self) -> Optional[int]:
        """A program takes the next word from the buffer of INT 09h, in one step: scan code above, character below. None
        if there is no word."""
        word = c.c_uint16()
        return word.value if self._done("take", word, unless=Status.NO_WORD) else None

    # What was said.

    def next(self) -> Optional[Item]:
        """The next item of the log, or None if all are handed out. Sixty-four are kept; Error with Status.LOST says, once,
        that there were more. `lost` says how many, before that."""
        item = library.Item()
        if not self._done("next", item, unless=Status.NOTHING_SAID):
            return None
        return Item(item.cycle, ItemKind(item.kind), item.value)

    def items(self) -> Iterator[Item]:
        """The items of the log that weren't handed out yet."""
        return iter(self.next, None)

    # Looks, which make no step and change nothing.

    @property
    def interrupt(self) -> bool:
        """Whether the interrupt line (IRQ 1) is up."""
        return self._shown("interrupt", c.c_bool)

    @property
    def lost(self) -> int:
        """How many items of the log were lost and not reported yet."""
        return self._shown("lost", c.c_uint64)

    @property
    def rises(self) -> int:
        """How often the line rose in the last run, or in the last access that wasn't refused."""
        return self._shown("rises", c.c_uint64)

    @property
    def lights(self) -> int:
        """The lights: 1 Scroll Lock, 2 Num Lock, 4 Caps Lock."""
        return self._shown("lights", c.c_uint8)

    @property
    def wires(self) -> Wires:
        """The levels of the two wires after the last cycle."""
        return Wires(*self._all_shown("wires", c.c_bool, c.c_bool))

    @property
    def pulls(self) -> Pulls:
        """Which wires the keyboard pulls and which the controller pulls, both after the last cycle: 1 the clock, 2 data."""
        return Pulls(*self._all_shown("pulls", c.c_uint8, c.c_uint8))

    @property
    def cycle(self) -> int:
        """How many cycles have passed since power-on. Stamp 0 of a key file is cycle 4,096."""
        return self._shown("cycle", c.c_uint64)

    @property
    def registers(self) -> Registers:
        """The controller's registers."""
        return Registers(*self._fields("look", library.Registers))

    @property
    def waiting(self) -> Waiting:
        """How many edges of keys, and how many words, wait."""
        return Waiting(*self._all_shown("waiting", c.c_uint8, c.c_uint8))

    @property
    def processor(self) -> Processor:
        """The keyboard's processor."""
        return Processor(*self._fields("inside", library.Processor))

    def column(self, number: int) -> int:
        """The keys of a column, 0 to 11, as the processor reads them: bit k is row k, 0 for down."""
        return self._shown("column", c.c_uint8, _unsigned(number, 8, "a column"))

    def cell(self, number: int) -> int:
        """A byte of the processor's data memory, 0 to 127."""
        return self._shown("cell", c.c_uint8, _unsigned(number, 8, "a cell"))

    # How the library is called.

    def _call(self, name: str, *words: Any) -> Status:
        return Status(getattr(LIBRARY, f"kbd48_{name}")(self._handle, *words))

    def _done(self, name: str, *words: Any, unless: Optional[Status] = None) -> bool:
        """Whether a call was done, or answered the status that isn't an error."""
        status = self._call(name, *words)
        if status != unless:
            _need(status)
        return status != unless

    def _all_shown(self, name: str, *kinds: Type[Any]) -> Tuple[Any, ...]:
        values = [kind() for kind in kinds]
        self._done(name, *values)
        return tuple(value.value for value in values)

    def _shown(self, name: str, kind: Type[Any], *words: int) -> Any:
        value = kind()
        self._done(name, *words, value)
        return value.value

    def _fields(self, name: str, kind: Type[c.Structure]) -> Iterator[Any]:
        value = kind()
        self._done(name, value)
        return (getattr(value, field) for field, *_ in kind._fields_)


def _need(status: Status) -> None:
    if status != Status.DONE:
        raise Error(status)
