/* An emulator's loop: time goes on in slices of 1 ms, and the guest polls port 64h a hundred times in each, which takes
   no keyboard time. Keys go through a queue. The key h is held from 400 ms to 1,200 ms; each byte that the guest reads is printed with its time.
   cc -I dist examples/embed_guest.c dist/libkbd48.a -o guest && ./guest examples/us84.toml */
#include "kbd48.h"
#include <stdio.h>
#include <stdlib.h>

enum { H = 34, STAMP_0 = 4096, CYCLES_PER_MS = 400 };

static kbd48 keyboard = KBD48_EMPTY;
static kbd48_keys keys = KBD48_NO_KEYS;

static void need(int32_t status) {
    if (status == KBD48_DONE) return;
    fprintf(stderr, "%s\n", kbd48_text(status));
    exit(1);
}

/* The guest reads port 64h: a look, which makes no step. */
static uint8_t in64(void) {
    kbd48_registers registers;
    need(kbd48_look(&keyboard, &registers));
    return registers.status;
}

/* The guest reads port 60h. Only a byte that waits has to be taken, by one step. */
static uint8_t in60(void) {
    kbd48_registers registers;
    need(kbd48_look(&keyboard, &registers));
    if (registers.status & 1) need(kbd48_read60(&keyboard, &registers.output));
    return registers.output;
}

static uint64_t now(void) {
    uint64_t cycle;
    need(kbd48_cycle(&keyboard, &cycle));
    return cycle;
}

/* The keyboard goes on to an absolute cycle, so what a call runs too far is taken off the next one. Each edge of the queue
   that is due ends a call, and the next one hands it over. */
static void run_to(uint64_t cycle) {
    uint64_t passed;
    kbd48_spot spot;
    while (now() < cycle) {
        int32_t status = kbd48_run_keys(&keyboard, &keys, cycle - now(), false, &passed, &spot);
        if (status != KBD48_KEY_DUE) need(status);
    }
}

int main(int argc, char **argv) {
    static uint8_t text[65536];
    kbd48_fault fault;
    FILE *file = fopen(argc > 1 ? argv[1] : "examples/us84.toml", "rb");
    size_t length = file ? fread(text, 1, sizeof text, file) : 0;
    need(kbd48_open_layout(text, length, &keyboard, &fault));
    for (unsigned ms = 0; ms < 1300; ms++) {
        run_to(STAMP_0 + CYCLES_PER_MS * (uint64_t)ms);
        if (ms == 400) need(kbd48_queue_key(&keys, now(), H, true));
        if (ms == 1200) need(kbd48_queue_key(&keys, now(), H, false));
        for (int poll = 0; poll < 100; poll++)
            if (in64() & 1) printf("%u ms %02X\n", ms, (unsigned)in60());
    }
    return kbd48_close(&keyboard);
}
