/* The PC: the controller 8042 with its link to the keyboard, the host's events and INT 09h's reads. Written from
   docs/PROFILE.md alone; what INT 09h makes of a byte is left out. */
#include "pc.h"
#include "hal.h"
#include "semihost.h"

enum { REST = 64, DISABLED = 0x10, TRANSLATES = 0x40, INTERRUPTS = 0x01 };
static enum { FREE, HOLD, ASK, REQUEST, RECEIVING, SENDING } link;
static enum { NOTHING, COMMAND_BYTE, OUTPUT_PORT } awaited;
static uint32_t now, since, filled;
static uint16_t frame;
static uint8_t bits, asked, flip, flip_of_frame, resends;
static uint8_t command_byte = 0x45, output, output_port = 0xCF, input;
static bool input_full, input_of_64, last_to_64, output_full, parity_error;
static bool awaits_reply, break_begun, masked, was_clock = true;
static uint8_t lit;
static unsigned next_event;

WORLD static void say(const char *what, uint32_t value, unsigned digits) {
#ifndef COST
    put_signed((int32_t)(now - POWER_ON));
    put(what);
    put_hex(value, digits);
    put("\n");
#else
    (void)what, (void)value, (void)digits;
#endif
}

WORLD static bool is_odd(unsigned value) {
    value ^= value >> 8, value ^= value >> 4, value ^= value >> 2;
    return (value ^ value >> 1) & 1;
}

WORLD static void put_out(uint8_t byte) {
    output = byte;
    output_full = true;
    parity_error = false;
    filled = now;
}

WORLD static void receive(uint8_t byte) {
    resends = 0;
    if (!(command_byte & TRANSLATES)) { put_out(byte); return; }
    if (byte == 0xF0) { break_begun = true; return; }
    uint8_t scan = byte == 0 ? 0xFF : script.scan_of[byte] ? script.scan_of[byte] : byte;
    bool is_code = byte < 0x80 || script.scan_of[byte];
    put_out(is_code && break_begun ? scan | 0x80 : scan);
    if (is_code) break_begun = false;
}

/* A frame has come: start, eight bits, odd parity, stop. */
WORLD static void take_frame(void) {
    if (flip_of_frame) frame ^= (uint16_t)(1 << flip_of_frame);
    awaits_reply = false;
    link = HOLD;
    since = now;
    if (!(frame & 1) && frame >> 10 & 1 && is_odd(frame >> 1 & 0x1FF)) {
        receive(frame >> 1 & 0xFF);
    } else if (resends < 3) {
        resends++;
        link = ASK;
        asked = 0xFE;
    } else {
        put_out(0xFF);
        parity_error = true;
        resends = 0;
    }
}

WORLD static void on_fall(bool data) {
    if (link == FREE) {
        link = RECEIVING;
        frame = bits = 0;
        flip_of_frame = flip;
        flip = 0;
    }
    if (link == RECEIVING) {
        frame |= (uint16_t)(data << bits);
        if (++bits == 11) take_frame();
    } else if (link == REQUEST) {
        link = SENDING;
        bits = 1;
    } else if (link == SENDING && ++bits == 11) {
        link = FREE;
        awaits_reply = true;
    }
}

WORLD static void host_writes(uint8_t byte, bool to_64) {
    input = byte;
    input_full = true;
    input_of_64 = last_to_64 = to_64;
}

WORLD static uint8_t status(void) {
    return (uint8_t)(0x10 | output_full | input_full << 1 | (command_byte & 4) | last_to_64 << 3 | parity_error << 7);
}

WORLD static void do_event(void) {
    while (script.events[next_event].what == KEY) next_event++;
    uint8_t what = script.events[next_event].what, byte = script.events[next_event].a;
    if (what == NO_EVENT || now < script.events[next_event].at + POWER_ON) return;
    if ((what == WRITE60 || what == WRITE64) && input_full) return;
    next_event++;
    switch (what) {
    case WRITE60: host_writes(byte, false); break;
    case WRITE64: host_writes(byte, true); break;
    case READ60: output_full = false; say(" read ", output, 2); break;
    case MASK: masked = true; break;
    case UNMASK: masked = false; break;
    case STATUS: say(" status ", status(), 2); break;
    case FLIP: flip = byte; break;
    default: break;
    }
}

WORLD static void host(void) {
    do_event();
    if (!output_full || !(command_byte & INTERRUPTS) || masked || now < filled + REST) return;
    output_full = false;
    say(" port ", output, 2);
}

WORLD static void obey(uint8_t command) {
    awaited = command == 0x60 ? COMMAND_BYTE : command == 0xD1 ? OUTPUT_PORT : NOTHING;
    switch (command) {
    case 0x20: put_out(command_byte); break;
    case 0xAA: put_out(0x55); break;
    case 0xAB: put_out(0x00); break;
    case 0xAD: command_byte |= DISABLED; break;
    case 0xAE: command_byte &= (uint8_t)~DISABLED; break;
    case 0xC0: put_out(0xB0); break;
    case 0xD0: put_out(output_port); break;
    default: if (command >= 0xF0) say(" pulse ", command & 15, 1);
    }
}

WORLD static void take_input(void) {
    if (output_full || !input_full || !(link == HOLD || (link == FREE && !awaits_reply))) return;
    input_full = false;
    if (input_of_64) { obey(input); return; }
    if (awaited == COMMAND_BYTE) {
        command_byte = input;
    } else if (awaited == OUTPUT_PORT) {
        output_port = input;
        say(" output ", input, 2);
    } else {
        command_byte &= (uint8_t)~DISABLED;
        if (link == FREE) since = now;
        link = ASK;
        asked = input;
    }
    awaited = NOTHING;
}

WORLD static void settle(void) {
    bool stops = output_full || command_byte & DISABLED;
    if (link == FREE && !awaits_reply && stops) {
        link = HOLD;
        since = now;
    } else if (link == HOLD && !stops && now >= since + REST) {
        link = FREE;
    } else if (link == ASK && now >= since + REST) {
        link = REQUEST;
    }
}

WORLD bool pc_pulls_clock(void) { return link == HOLD || link == ASK; }

WORLD bool pc_pulls_data(void) {
    if (link != SENDING) return link == REQUEST;
    return bits <= 8 ? !(asked >> (bits - 1) & 1) : bits == 9 && is_odd(asked);
}

WORLD void pc_cycle(uint32_t cycle, bool clock, bool data, uint8_t lights) {
    now = cycle;
    if (lights != lit) say(" lights ", lit = lights, 1);
    clock = clock && !pc_pulls_clock();
    data = data && !pc_pulls_data();
    if (was_clock && !clock) on_fall(data);
    was_clock = clock;
    host();
    if (link == RECEIVING && bits < 10 && !awaits_reply && input_full) {
        link = HOLD;
        since = now;
    }
    take_input();
    settle();
}

WORLD void pc_trace(uint32_t cycle, bool clock, bool data) {
    static bool had_clock = true, had_data = true;
    if (clock == had_clock && data == had_data) return;
    put("#"), put_number(25 * cycle), put("\n");
    if (clock != had_clock) put(clock ? "1c\n" : "0c\n");
    if (data != had_data) put(data ? "1d\n" : "0d\n");
    had_clock = clock, had_data = data;
}
