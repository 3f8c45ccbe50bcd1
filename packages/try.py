"""Tries the module kbd48 as it is installed: try.py LAYOUT STUCK. Somebody types H, i and Enter at the times of
typing_hi.keys; it prints what `kbd48 run` prints for that file. Before that, what must be refused is refused: STUCK is a
program that runs into a byte without an instruction."""
import copy
import inspect
import sys

import kbd48
from kbd48 import Error, Help, ItemKind, Keyboard, Status, Stop, Stuck, TextFault

FIRST_TICK, CYCLES_OF_A_TICK, CYCLES_OF_A_MS = 4096, 2048, 400
LSHIFT, H, I, ENTER = 41, 34, 23, 40
STROKES = [(400, LSHIFT, True), (450, H, True), (500, H, False), (550, LSHIFT, False), (600, I, True), (645, I, False),
           (700, ENTER, True), (745, ENTER, False)]


def refusal(call, *words):
    """What a call raises."""
    try:
        call(*words)
    except (Error, ValueError) as error:
        return error
    raise AssertionError(f"{call} takes {words}")


def check_refusals(layout, stuck):
    """Each kind of refusal, with what it says."""
    fault = refusal(Keyboard.of_layout, "columns = 1")
    assert isinstance(fault, TextFault) and fault.number > 0, fault
    with Keyboard.of_layout(layout) as keyboard:
        for call, words, status in ((keyboard.key, (96, True), Status.NO_SUCH_PLACE), (keyboard.cell, (128,), Status.NO_SUCH_CELL),
                                    (keyboard.write, (0x61, 0), Status.NO_SUCH_PORT)):
            assert refusal(call, *words).status == status
        for call, words in ((keyboard.key, (256, True)), (keyboard.write, (0x60, 256)), (keyboard.run, (-1,))):
            assert isinstance(refusal(call, *words), ValueError)
        assert [keyboard.key(0, bool(it % 2)) for it in range(5)] == [True] * 4 + [False]
        assert keyboard.take() is None and keyboard.run(400).cycles >= 400
        twin = keyboard.copy()
        assert twin.run(100_000) == keyboard.run(100_000) and twin.processor == keyboard.processor
        saved = keyboard.save()
        with Keyboard.of_saved(saved) as loaded:
            assert loaded.save() == saved and loaded.run(1000) == twin.run(1000)
        assert refusal(Keyboard.of_saved, saved[1:]).status == Status.BAD_SIZE
        assert refusal(Keyboard.of_saved, bytes(3077)).status == Status.NOT_SAVED
    with Keyboard.of_layout(layout, ready=True) as ready:
        assert ready.interrupt and ready.lost == 0 and ready.run_to(Stop(0), 400_000, steps=1).met == Stop(0)
        assert ready.run_to(Stop.COUNTER | Stop.RISE, 4096, at=7).met == Stop.COUNTER and ready.processor.counter == 7
        ready.power_on(0xFF)
        assert ready.cycle < 4099 and ready.run(400_000, watched=True).rose and ready.read60() == 0xAA
        assert isinstance(refusal(ready.power_on, 256), ValueError)
    assert refusal(keyboard.run, 1).status == refusal(keyboard.power_on).status == Status.NOT_OPEN
    assert twin.cycle > 100_000 and twin.wires.clock in (True, False)
    found = refusal(Keyboard.of_hex(stuck).run, 100)
    assert isinstance(found, Stuck) and (found.counter, found.byte) == (0x003, 0x01), found


def check_queue(layout):
    """Keys that are pushed at once are read in their order, on the sample layout."""
    shift, h = Keyboard.place_of("lshift", layout), Keyboard.place_of("h")
    assert (shift, h, refusal(Keyboard.place_of, "H").status) == (41, 34, Status.NO_SUCH_KEY)
    with Keyboard.of_sample() as keyboard:
        assert keyboard.run_keys(400_000, watched=True).rose and keyboard.read60() == 0xAA
        assert keyboard.queue_key(shift, True) and keyboard.queue_key(h, True) and keyboard.queue_key(h, True)
        keyboard.release_all()
        assert keyboard.queued == 4 and refusal(keyboard.queue_key, 96, True).status == Status.NO_SUCH_PLACE
        twin, saved = keyboard.copy(), keyboard.save_queue()
        for byte in (0x2A, 0x23, 0xA3, 0xAA):
            assert twin.run_keys(400_000, watched=True).rose and twin.read60() == byte
        assert twin.queued == 0 and keyboard.queued == 4 and keyboard.run_keys(40_000).rises == 1
        kept = keyboard.queue
        keyboard.queue = twin.queue
        assert keyboard.queued == 0 and isinstance(refusal(setattr, keyboard, "queue", kept[1:]), ValueError)
        keyboard.queue = kept
        assert keyboard.queue == kept
        twin.load_queue(saved)
        assert len(saved) == 1629 and twin.queued == 4 and twin.save_queue() == saved
        assert refusal(twin.load_queue, saved[1:]).status == Status.BAD_SIZE
        assert refusal(twin.load_queue, saved[:16] + b"\xa1" + saved[17:]).status == Status.BAD_STATE
        assert twin.queued == 4


def answer(keyboard, byte):
    """What the keyboard answers to a byte."""
    assert keyboard.write(0x60, byte) and keyboard.run(40_000, watched=True).rose
    return keyboard.read60()


def check_help():
    """Help for two BIOSes: without it SeaBIOS's F0 and 02 leave the keyboard disabled, and the test after FF takes 332 ms."""
    none, seabios, bochs = Help(), Help(seabios=True), Help(bochs=True)
    with Keyboard.of_sample(ready=True) as keyboard:
        keyboard.read60()
        for given in (none, seabios, bochs):
            written = [given.write(0x60, byte) for byte in (0xF0, 0x02)]
            assert written == [0xF0, 0xEF if given is seabios else 0x02], written
            answers = [answer(keyboard, byte) for byte in written]
            assert answers == [0xFA, 0xFA if given is seabios else 0xFE], answers
            assert answer(keyboard, given.write(0x60, 0xFF)) == 0xFA
            assert [given.read(0xFA), given.read(0xFA)] == [given is bochs, False], given
            assert keyboard.run(160_000, watched=True).rose and keyboard.read60() == 0xAA
    # A parameter is no byte for the keyboard, and a copy goes its own way.
    assert [seabios.write(*it) for it in ((0x60, 0xF0), (0x64, 0x60), (0x60, 0x45), (0x64, 0xD1))] == [0xF0, 0x60, 0x45, 0xD1]
    before = copy.copy(seabios)
    assert before == Help(True, False, True, 0xF0), before
    for given in (seabios, before):
        assert [given.write(0x60, byte) for byte in (0xCF, 0x02, 0x02)] == [0xCF, 0xEF, 0x02]
    for call, words in ((none.write, (0x60, 256)), (none.write, (-1, 0)), (none.read, (256,)), (Help(last=256).read, (0,))):
        assert isinstance(refusal(call, *words), ValueError)


def check_docs():
    """Each public name has a docstring, and each method says what it answers."""
    for name in kbd48.__all__:
        assert name == "VERSION" or inspect.getdoc(getattr(kbd48, name)), name
    for kind, fields in ((Keyboard, ()), (Help, Help.__dataclass_fields__)):
        for name, it in vars(kind).items():
            if not name.startswith("_") and name not in fields:
                function = it.fget if isinstance(it, property) else getattr(it, "__func__", it)
                assert function.__doc__ and "return" in function.__annotations__, name


def type_hi(layout):
    """What `kbd48 run` prints for typing_hi.keys."""
    with Keyboard.of_layout(layout) as keyboard:
        keyboard.bios(True)
        for ms, place, down in [*STROKES, (780, None, False)]:
            left = FIRST_TICK + CYCLES_OF_A_MS * ms - keyboard.cycle
            keyboard.run(left)
            if place is not None:
                assert keyboard.key(place, down)
            yield from logged(keyboard)
        while keyboard.take() is not None:
            pass
        yield from logged(keyboard)


def logged(keyboard):
    """The items that the log has; bytes on the wires are no part of it."""
    return (item for item in keyboard.items() if item.kind not in (ItemKind.SENT, ItemKind.GIVEN))


def text(item):
    """An item as the log has it."""
    words = {ItemKind.PORT: f"port {item.value:02X}", ItemKind.WORD: f"word {item.value:04X}",
             ItemKind.TAKEN: f"taken {item.value:04X}", ItemKind.TAKEN_NONE: "taken none"}
    return f"{item.stamp // CYCLES_OF_A_TICK} {words[item.kind]}"


def main(layout, stuck):
    with open(layout, "rb") as file:
        layout = file.read()
    with open(stuck, "rb") as file:
        check_refusals(layout, file.read())
    check_queue(layout)
    check_help()
    check_docs()
    for item in type_hi(layout):
        print(text(item))


if __name__ == "__main__":
    main(*sys.argv[1:])
