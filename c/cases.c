/* What goes wrong if a keyboard is put into an emulator without care, as cases: a guest that polls, an interrupt controller in
   edge mode, a BIOS that gives up early, texts at their limits, a program that sends before stamp 0, and a guest that writes
   without looking. c/queue.c has the cases of keys: their order, and short strokes. */
#include "kbd48.h"
#include <stdio.h>
#include <stdlib.h>
#include <string.h>

#define CHECK(x) \
    do { \
        if (!(x)) { \
            fprintf(stderr, "%s:%d: %s\n", __FILE__, __LINE__, #x); \
            exit(1); \
        } \
    } while (0)

enum { MS = 400, SLICE = MS / 10, SECOND = 400000, STAMP_0 = 4096, H = 34, INPUT_FULL = 2 };

static uint64_t now(kbd48 *k) {
    uint64_t cycle;
    CHECK(kbd48_cycle(k, &cycle) == KBD48_DONE);
    return cycle;
}

/* Runs for so many cycles, and returns how often the line rose. */
static uint64_t run(kbd48 *k, uint64_t cycles) {
    uint64_t passed, rises;
    kbd48_spot spot;
    CHECK(kbd48_run(k, cycles, false, &passed, &spot) == KBD48_DONE && kbd48_rises(k, &rises) == KBD48_DONE);
    return rises;
}

static kbd48_registers look(kbd48 *k) {
    kbd48_registers registers;
    CHECK(kbd48_look(k, &registers) == KBD48_DONE);
    return registers;
}

/* The next byte that waits within so many cycles of the emulator's clock, and after how many; false if none comes. The guest
   polls a hundred times in each slice: no look takes keyboard time. */
static bool polled_in(kbd48 *k, uint64_t cycles, uint8_t *byte, uint64_t *took) {
    uint64_t start = now(k);
    for (*took = 0; *took < cycles; *took += SLICE) {
        if (now(k) < start + *took) run(k, start + *took - now(k));
        uint64_t before = now(k);
        for (int i = 0; i < 100; i++)
            if (look(k).status & 1) return kbd48_read60(k, byte) == KBD48_DONE;
        CHECK(now(k) == before);
    }
    return false;
}

static bool polled(kbd48 *k, uint64_t cycles, uint8_t *byte) {
    uint64_t took;
    return polled_in(k, cycles, byte, &took);
}

static kbd48 a_ready_keyboard(void) {
    kbd48 k = KBD48_EMPTY;
    uint8_t byte;
    CHECK(kbd48_open_sample(&k) == KBD48_DONE && polled(&k, SECOND, &byte) && byte == 0xaa);
    return k;
}

/* A held key begins to repeat after 500 ms, and then each 100 ms, however fast the guest polls. */
static void a_guest_that_polls(void) {
    kbd48 k = a_ready_keyboard();
    uint64_t took;
    uint8_t byte;
    CHECK(kbd48_key(&k, H, true) == KBD48_DONE && polled(&k, SECOND, &byte) && byte == 0x23);
    CHECK(polled_in(&k, SECOND, &byte, &took) && byte == 0x23 && took > 495 * MS && took < 510 * MS);
    for (int i = 0; i < 3; i++)
        CHECK(polled_in(&k, SECOND, &byte, &took) && byte == 0x23 && took > 99 * MS && took < 105 * MS);
    CHECK(kbd48_close(&k) == KBD48_DONE);
}

/* The rises of single steps add up to those of one run, and each of them asks for an interrupt. An 8259 in edge mode that
   gets them hands each byte to the guest. */
static void each_rise(void) {
    kbd48 k = a_ready_keyboard(), other = KBD48_EMPTY;
    uint64_t rises = 0, bytes = 0;
    CHECK(kbd48_bios(&k, true) == KBD48_DONE && kbd48_key(&k, H, true) == KBD48_DONE && kbd48_copy(&k, &other) == KBD48_DONE);
    uint64_t end = now(&k) + SECOND, in_one = run(&k, SECOND);
    while (now(&other) < end) rises += run(&other, 1);
    CHECK(rises == in_one && rises == 6 && now(&k) == now(&other));
    CHECK(kbd48_bios(&k, false) == KBD48_DONE);
    bool asked = false;
    for (uint8_t byte, wanted[] = {0x23, 0x55, 0xcf}; bytes < sizeof wanted; bytes++) {
        for (int i = 0; i < 1000 && !asked; i++) asked = run(&k, 64) > 0;
        CHECK(asked);
        /* While the byte waits the guest commands another, so that the line falls and rises within the read. */
        if (bytes < 2) CHECK(kbd48_write(&k, 0x64, bytes == 0 ? 0xaa : 0xd0) == KBD48_DONE);
        CHECK(kbd48_read60(&k, &byte) == KBD48_DONE && byte == wanted[bytes] && kbd48_rises(&k, &rises) == KBD48_DONE);
        asked = rises > 0;
    }
    CHECK(kbd48_close(&k) == KBD48_DONE && kbd48_close(&other) == KBD48_DONE);
}

/* A BIOS that resets the keyboard 41 ms after power-on has its FA only when the power-on test is over, after 320 ms. A
   keyboard that was opened ready gives it within 20 ms, and the AA of its test after that. */
static void a_bios_that_gives_up(const uint8_t *layout, size_t length) {
    kbd48 k = KBD48_EMPTY;
    kbd48_fault fault;
    uint8_t byte;
    CHECK(kbd48_open_sample(&k) == KBD48_DONE);
    run(&k, 41 * MS - (now(&k) - STAMP_0));
    CHECK(kbd48_write(&k, 0x60, 0xff) == KBD48_DONE && !polled(&k, 250 * MS, &byte));
    CHECK(kbd48_open_ready_layout(layout, length, &k, &fault) == KBD48_DONE);
    CHECK(kbd48_read60(&k, &byte) == KBD48_DONE && byte == 0xaa);
    CHECK(kbd48_write(&k, 0x60, 0xff) == KBD48_DONE && polled(&k, 20 * MS, &byte) && byte == 0xfa);
    CHECK(polled(&k, SECOND, &byte) && byte == 0xaa);
    CHECK(kbd48_close(&k) == KBD48_DONE);
}

/* A layout may have 65,536 bytes and a HEX text 16,384. One byte more is refused, and the keyboard that was there stays. */
static void texts_at_their_limits(const uint8_t *layout, size_t length, const uint8_t *hex, size_t hex_length) {
    static uint8_t text[73284];
    kbd48 k = KBD48_EMPTY;
    kbd48_fault fault;
    memset(text, '\n', sizeof text);
    memcpy(text, layout, length);
    CHECK(kbd48_open_layout(text, 65536, &k, &fault) == KBD48_DONE && kbd48_close(&k) == KBD48_DONE);
    memset(text, '\n', sizeof text);
    memcpy(text, hex, hex_length);
    CHECK(kbd48_open_hex(text, 16384, &k, &fault) == KBD48_DONE);
    run(&k, 1000);
    uint64_t before = now(&k);
    CHECK(kbd48_open_layout(text, 65537, &k, &fault) == KBD48_TOO_LONG && now(&k) == before);
    CHECK(kbd48_open_layout(text, sizeof text, &k, &fault) == KBD48_TOO_LONG && now(&k) == before);
    CHECK(kbd48_open_hex(text, 16385, &k, &fault) == KBD48_TOO_LONG && now(&k) == before);
    CHECK(kbd48_close(&k) == KBD48_DONE);
}

/* INT 09h is masked from stamp 0 on. A byte that a program sends before goes to it, and doesn't wait when the keyboard is
   open: the log says so. */
static void a_byte_before_stamp_0(const uint8_t *hex, size_t length) {
    kbd48 k = KBD48_EMPTY;
    kbd48_fault fault;
    kbd48_item item;
    unsigned sent = 0, read = 0;
    bool up;
    CHECK(kbd48_open_hex(hex, length, &k, &fault) == KBD48_DONE);
    CHECK(kbd48_interrupt(&k, &up) == KBD48_DONE && !up && !(look(&k).status & 1) && look(&k).output == 0xff);
    while (kbd48_next(&k, &item) == KBD48_DONE) {
        CHECK(item.cycle < STAMP_0);
        sent += item.kind == KBD48_ITEM_SENT, read += item.kind == KBD48_ITEM_PORT && item.value == 0xff;
    }
    CHECK(sent > 0 && read == 1 && kbd48_close(&k) == KBD48_DONE);
}

/* A guest that writes without looking. A write is refused while the input buffer is full, and changes nothing, unlike a real 8042, which
   overwrites. The buffer stays full while the answer to the byte before isn't read. */
static void a_write_without_a_look(void) {
    kbd48 k = a_ready_keyboard();
    uint64_t before;
    uint8_t byte;
    CHECK(kbd48_write(&k, 0x60, 0xed) == KBD48_DONE && kbd48_write(&k, 0x60, 0x07) == KBD48_DONE);
    CHECK((look(&k).status & INPUT_FULL) && (before = now(&k), kbd48_write(&k, 0x60, 0x02) == KBD48_FULL) && now(&k) == before);
    run(&k, SECOND);
    CHECK(look(&k).output == 0xfa && (look(&k).status & INPUT_FULL) && kbd48_write(&k, 0x60, 0x02) == KBD48_FULL);
    for (int i = 0; i < 2; i++) CHECK(polled(&k, SECOND, &byte) && byte == 0xfa);
    run(&k, 20 * MS);
    CHECK(kbd48_lights(&k, &byte) == KBD48_DONE && byte == 7 && !(look(&k).status & INPUT_FULL));
    CHECK(kbd48_close(&k) == KBD48_DONE);
}

static size_t text_of(const char *name, uint8_t *to, size_t most) {
    FILE *file = fopen(name, "rb");
    CHECK(file);
    size_t length = fread(to, 1, most, file);
    fclose(file);
    return length;
}

int main(void) {
    static uint8_t layout[65536], hex[16384], rise[16384];
    size_t length = text_of("examples/us84.toml", layout, sizeof layout), hex_length = text_of("examples/us84.hex", hex, sizeof hex);
    a_guest_that_polls();
    each_rise();
    a_bios_that_gives_up(layout, length);
    texts_at_their_limits(layout, length, hex, hex_length);
    a_byte_before_stamp_0(rise, text_of("examples/rise.hex", rise, sizeof rise));
    a_write_without_a_look();
    puts("cases: what goes wrong without care goes right");
}
