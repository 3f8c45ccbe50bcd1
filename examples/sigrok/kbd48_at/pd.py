"""A decoder for sigrok and PulseView: the link of an AT keyboard (and of a PS/2 keyboard, whose frames are the same).

The keyboard gives the clock for both directions. A byte is eleven falls of the clock: start 0, eight data bits with the
lowest first, odd parity, stop 1. The keyboard's bits are read at the falls. If the PC sends, it holds the clock low, pulls data
low, and lets the clock go; then the keyboard gives the falls, and the PC puts the next bit after each. Those bits are read when
the clock rises, and at the eleventh fall the keyboard pulls data low to acknowledge.

The PC may also hold the clock low after a byte, or to break one off. Such a pulse isn't a bit: it is longer than the
keyboard's."""

import sigrokdecode as srd

CLOCK, DATA = 0, 1
# What is drawn, each in its row.
BIT, KEYBOARD, PC, HOLD, REQUEST, FAULT = range(6)
EDGES = 11

KEYBOARD_BYTES = {0x00: 'overrun', 0xAA: 'test passed', 0xEE: 'echo', 0xF0: 'break', 0xFA: 'acknowledge', 0xFC: 'test failed',
                  0xFE: 'resend', 0xFF: 'key error'}
PC_BYTES = {0xED: 'lights', 0xEE: 'echo', 0xF0: 'scan code set', 0xF2: 'read the name', 0xF3: 'typematic', 0xF4: 'enable',
            0xF5: 'disable', 0xF6: 'default', 0xFE: 'resend', 0xFF: 'reset'}


class SamplerateError(Exception):
    """The capture doesn't say how fast it was sampled."""


class Decoder(srd.Decoder):
    api_version = 3
    id = 'kbd48_at'
    name = 'AT keyboard'
    longname = 'AT keyboard link'
    desc = 'IBM PC/AT keyboard, both directions.'
    license = 'unknown'
    inputs = ['logic']
    outputs = []
    tags = ['PC']
    channels = (
        {'id': 'clk', 'name': 'Clock', 'desc': 'Clock wire'},
        {'id': 'data', 'name': 'Data', 'desc': 'Data wire'},
    )
    options = (
        {'id': 'hold', 'desc': 'Shortest hold by the PC (us)', 'default': 55},
        {'id': 'glitch', 'desc': 'Longest pulse that is no clock (us)', 'default': 5},
        {'id': 'gap', 'desc': 'Longest time between two falls (us)', 'default': 400},
    )
    annotations = (
        ('bit', 'Bit'),
        ('keyboard', 'Byte of the keyboard'),
        ('pc', 'Byte of the PC'),
        ('hold', 'Clock held by the PC'),
        ('request', 'PC requests to send'),
        ('fault', 'Fault'),
    )
    annotation_rows = (
        ('bits', 'Bits', (BIT,)),
        ('bytes', 'Bytes', (KEYBOARD, PC)),
        ('line', 'Line', (HOLD, REQUEST)),
        ('faults', 'Faults', (FAULT,)),
    )

    def __init__(self):
        self.reset()

    def reset(self):
        self.samplerate = None
        self.begin_frame(False, None)

    def metadata(self, key, value):
        if key == srd.SRD_CONF_SAMPLERATE:
            self.samplerate = value

    def start(self):
        self.out_ann = self.register(srd.OUTPUT_ANN)

    def say(self, first, last, what, *texts):
        self.put(first, last, self.out_ann, [what, list(texts)])

    def fault(self, first, last, text):
        self.say(first, last, FAULT, text)

    def samples(self, option):
        return self.options[option] * self.samplerate / 1e6

    def begin_frame(self, by_pc, since):
        """No bit is known of the next frame, which is the PC's or the keyboard's. `since` is when its last edge was."""
        self.by_pc, self.bits, self.since = by_pc, [], since

    def is_late(self, fall):
        """Whether a fall comes too late to be of the frame that has begun. After a request the keyboard may take its time."""
        return bool(self.bits) and fall - self.since > self.samples('gap')

    def give_up(self, last):
        """The frame that has begun won't be whole."""
        who = 'PC' if self.by_pc else 'keyboard'
        first = self.bits[0][0] if self.bits else self.since
        self.fault(first, last, '%s: only %d of %d edges' % (who, len(self.bits), EDGES))
        self.begin_frame(False, None)

    def take_hold(self, fall, at_fall):
        """Takes the fall of a pulse that has become too long for a clock's: the PC holds the clock. The hold may have begun
        within the last pulse of a byte, whose fall is then the byte's."""
        if len(self.bits) == EDGES - 1 and not self.is_late(fall):
            self.take_bit(fall, self.samplenum, at_fall, at_fall)
            self.finish()
        elif self.bits:
            who = 'PC' if self.by_pc else 'keyboard'
            self.fault(self.bits[0][0], self.samplenum, '%s: broken off after %d edges' % (who, len(self.bits)))

    def end_hold(self, fall, at_rise):
        """The PC lets the clock go. If data is low, the PC requests to send."""
        rise = self.samplenum
        self.say(fall, rise, HOLD, 'clock held', 'hold', 'H')
        self.begin_frame(not at_rise, rise)
        if self.by_pc:
            self.say(rise, rise, REQUEST, 'request', 'R')

    def take_bit(self, fall, rise, at_fall, at_rise):
        """Takes a pulse of the clock. Of the PC's first ten bits the level at the rise counts."""
        is_read_late = self.by_pc and len(self.bits) < EDGES - 1
        bit = at_rise if is_read_late else at_fall
        if not self.bits and not self.by_pc and bit:
            self.fault(fall, rise, 'edge without a start bit')
            return
        self.bits.append((fall, rise, bit))
        self.since = fall
        self.say(fall, rise, BIT, str(bit))

    def finish(self):
        """Says what a frame of eleven edges is."""
        bits = [bit for _, _, bit in self.bits]
        first, last = self.bits[0][0], self.bits[-1][1]
        # The PC's start bit is data's low level before the first fall; its last edge is the acknowledgement.
        data, parity, stop = (bits[0:8], bits[8], bits[9]) if self.by_pc else (bits[1:9], bits[9], bits[10])
        byte = sum(bit << place for place, bit in enumerate(data))
        who, names = ('PC', PC_BYTES) if self.by_pc else ('keyboard', KEYBOARD_BYTES)
        name = ' (%s)' % names[byte] if byte in names else ''
        self.say(first, last, PC if self.by_pc else KEYBOARD, '%s %02X%s' % (who, byte, name), '%s %02X' % (who, byte), '%02X' % byte)
        if (sum(data) + parity) % 2 == 0:
            self.fault(self.bits[8 if self.by_pc else 9][0], last, '%s %02X: wrong parity' % (who, byte))
        if not stop:
            self.fault(self.bits[9 if self.by_pc else 10][0], last, '%s %02X: stop bit 0' % (who, byte))
        if self.by_pc and bits[10]:
            self.fault(self.bits[10][0], last, 'PC %02X: not acknowledged' % byte)
        self.begin_frame(False, None)

    def take_pulse(self, fall, at_fall, at_rise):
        """Takes a pulse of the keyboard's clock, with the levels of data at its fall and at its rise, which is now."""
        rise = self.samplenum
        if rise - fall <= self.samples('glitch'):
            self.fault(fall, rise, 'glitch')
            return
        if self.is_late(fall):
            self.give_up(fall)
        self.take_bit(fall, rise, at_fall, at_rise)
        if len(self.bits) == EDGES:
            self.finish()

    def wait_for_fall(self):
        """Waits until the clock falls, and returns the level of data then. If data rises after a request, before any fall, the PC has
        given the request up."""
        while self.by_pc and not self.bits:
            _, data = self.wait([{CLOCK: 'f'}, {CLOCK: 'h', DATA: 'r'}])
            if self.matched[0]:
                return data
            self.give_up(self.samplenum)
        return self.wait({CLOCK: 'f'})[DATA]

    def decode(self):
        if not self.samplerate:
            raise SamplerateError('the capture has no samplerate')
        while True:
            at_fall = self.wait_for_fall()
            fall = self.samplenum
            _, at_rise = self.wait([{CLOCK: 'r'}, {'skip': int(self.samples('hold'))}])
            if self.matched[0]:
                self.take_pulse(fall, at_fall, at_rise)
            else:
                self.take_hold(fall, at_fall)
                _, at_rise = self.wait({CLOCK: 'r'})
                self.end_hold(fall, at_rise)
