"""The keyboard inside a Python program: somebody types H, i and Enter on the sample layout, at the times of
typing_hi.keys, and this prints what `kbd48 run` prints for that file.
c/build && python3 examples/embed.py examples/us84.toml"""
import ctypes as c
import os
import sys

TOP = os.path.join(os.path.dirname(os.path.abspath(__file__)), "..")
DONE, ROSE = 0, 12


class Handle(c.Structure):
    _fields_ = [("at", c.c_void_p)]


class Fault(c.Structure):
    _fields_ = [("position", c.c_uint32), ("number", c.c_uint32)]


class Spot(c.Structure):
    _fields_ = [("counter", c.c_uint16), ("byte", c.c_uint8)]


lib = c.CDLL(os.path.join(TOP, "dist", "libkbd48.so"))
H = c.POINTER(Handle)
lib.kbd48_open_layout.argtypes = [c.c_char_p, c.c_size_t, H, c.POINTER(Fault)]
lib.kbd48_close.argtypes = [H]
lib.kbd48_key.argtypes = [H, c.c_uint8, c.c_bool]
lib.kbd48_run.argtypes = [H, c.c_uint64, c.c_bool, c.POINTER(c.c_uint64), c.POINTER(Spot)]
lib.kbd48_read60.argtypes = [H, c.POINTER(c.c_uint8)]
lib.kbd48_take.argtypes = [H, c.POINTER(c.c_uint16)]
lib.kbd48_bios.argtypes = [H, c.c_bool]
lib.kbd48_interrupt.argtypes = [H, c.POINTER(c.c_bool)]
lib.kbd48_cycle.argtypes = [H, c.POINTER(c.c_uint64)]

text = open(sys.argv[1] if len(sys.argv) > 1 else os.path.join(TOP, "examples", "us84.toml"), "rb").read()
keyboard, byte, word, up = Handle(), c.c_uint8(), c.c_uint16(), c.c_bool()
cycle, passed, spot = c.c_uint64(), c.c_uint64(), Spot()
words = []


def now():
    lib.kbd48_cycle(keyboard, cycle)
    return cycle.value


def tick():
    return (now() - 4096) // 2048


def run_to(ms):
    end = 4096 + 400 * ms
    while now() < end:
        if lib.kbd48_run(keyboard, end - cycle.value, True, passed, spot) != ROSE:
            continue
        up.value = True
        while up.value:
            lib.kbd48_run(keyboard, 1, False, passed, spot)
            lib.kbd48_interrupt(keyboard, up)
        print(tick(), "port ", end="")
        lib.kbd48_read60(keyboard, byte)
        print("%02X" % byte.value)
        while lib.kbd48_take(keyboard, word) == DONE:
            words.append(word.value)
            print(tick(), "word %04X" % word.value)


if lib.kbd48_open_layout(text, len(text), keyboard, Fault()) != DONE or lib.kbd48_bios(keyboard, True) != DONE:
    sys.exit("not opened")
LSHIFT, H_KEY, I_KEY, ENTER = 41, 34, 23, 40
for ms, key, down in [(400, LSHIFT, 1), (450, H_KEY, 1), (500, H_KEY, 0), (550, LSHIFT, 0),
                      (600, I_KEY, 1), (645, I_KEY, 0), (700, ENTER, 1), (745, ENTER, 0)]:
    run_to(ms)
    lib.kbd48_key(keyboard, key, bool(down))
run_to(780)
for taken in words:
    print(tick(), "taken %04X" % taken)
print(tick(), "taken none")
lib.kbd48_close(keyboard)
