/* A guest that polls: it reads the status at port 64h without end, and port 60h whenever the output buffer is full, as no
   key file could say. Every so often somebody types. It prints what happened in these samples, by stamps that count from
   the sample's base, a multiple of two ticks: `tests/polled` compares them with the model.
   polled HEX SECONDS SAMPLES SEED < PLACES */
#include "kbd48.h"
#include <stdio.h>
#include <stdlib.h>

#define CHECK(x) \
    do { \
        if (!(x)) { \
            fprintf(stderr, "polled: access %lu: %s\n", accesses, #x); \
            exit(1); \
        } \
    } while (0)

/* The columns of a tick have been read by AFTER_COLUMNS. */
enum { SECOND = 400000, TICK = 2048, STAMP_0 = 4096, BETWEEN = 18, BEFORE_READ = 8, AFTER_COLUMNS = 240, STROKES = 12 };

static kbd48 k = KBD48_EMPTY;
static unsigned long accesses, bytes;
static uint64_t state;

static uint32_t random_below(uint32_t most) { /* xorshift64*: the high half of the product */
    state ^= state >> 12, state ^= state << 25, state ^= state >> 27;
    return (uint32_t)((state * 2685821657736338717u) >> 32) % most;
}

static uint64_t stamp(void) {
    uint64_t cycle;
    CHECK(kbd48_cycle(&k, &cycle) == KBD48_DONE);
    return cycle - STAMP_0;
}

static void run(uint64_t cycles) {
    uint64_t passed;
    kbd48_spot spot;
    CHECK(kbd48_run(&k, cycles, false, &passed, &spot) == KBD48_DONE);
}

/* Polls up to a stamp, and shows each byte that comes, if it is of a sample. */
static void poll_to(uint64_t until, bool shows, uint64_t base) {
    while (stamp() < until) {
        uint8_t status, byte;
        CHECK(kbd48_status(&k, &status) == KBD48_DONE);
        accesses++;
        if (status & 1) {
            run(BEFORE_READ);
            uint64_t at = stamp();
            CHECK(kbd48_read60(&k, &byte) == KBD48_DONE);
            accesses++, bytes++;
            if (shows) printf("read %llu %02X\n", (unsigned long long)(at - base), byte);
        }
        run(BETWEEN);
    }
}

/* A key goes down or up, but not while its tick reads the columns. A tick starts at its multiple of 2,048 cycles or one
   cycle past it, by what was before; so an edge in the very cycle of a reading may be seen a tick earlier or later. */
static void key(uint8_t place, bool down, uint64_t base) {
    uint64_t offset = stamp() % TICK;
    if (offset < AFTER_COLUMNS) poll_to(stamp() + AFTER_COLUMNS - offset, true, base);
    CHECK(kbd48_key(&k, place, down) == KBD48_DONE);
    printf("key %llu %u %d\n", (unsigned long long)(stamp() - base), place, down);
}

/* Some strokes, one after another: a key goes down, and is held for 6 to 900 ms; now and then a second one with it. */
static void sample(const uint8_t *places, uint32_t count, uint64_t base) {
    printf("sample %llu\n", (unsigned long long)base);
    poll_to(base, false, base);
    for (int i = 0; i < STROKES; i++) {
        uint8_t one = places[random_below(count)], two = places[random_below(count)];
        bool both = two != one && random_below(3) == 0;
        poll_to(stamp() + 2400 + random_below(SECOND / 10), true, base);
        key(one, true, base);
        if (both) poll_to(stamp() + random_below(SECOND / 20), true, base), key(two, true, base);
        poll_to(stamp() + 2400 + random_below(random_below(4) ? SECOND / 10 : SECOND), true, base);
        key(one, false, base);
        if (both) poll_to(stamp() + 2400 + random_below(SECOND / 20), true, base), key(two, false, base);
    }
    poll_to(stamp() + SECOND / 4, true, base);
    printf("end %llu\n", (unsigned long long)(stamp() - base));
}

int main(int argc, char **argv) {
    static uint8_t hex[16384], places[96];
    uint32_t count = 0;
    unsigned one;
    kbd48_fault fault;
    CHECK(argc == 5);
    uint64_t end = strtoull(argv[2], NULL, 10) * SECOND, samples = strtoull(argv[3], NULL, 10);
    state = strtoull(argv[4], NULL, 10) * 0x9e3779b97f4a7c15u + 1;
    while (count < 96 && scanf("%u", &one) == 1) places[count++] = (uint8_t)one;
    CHECK(count > 1 && samples > 0);
    FILE *file = fopen(argv[1], "rb");
    size_t length = file ? fread(hex, 1, sizeof hex, file) : 0;
    CHECK(kbd48_open_hex(hex, length, &k, &fault) == KBD48_DONE);
    for (uint64_t i = 0; i < samples; i++) {
        uint64_t base = end / samples * (i + 1);
        base = base > 20 * SECOND ? base - 20 * SECOND : SECOND;
        if (base < stamp() + SECOND) base = stamp() + SECOND;
        sample(places, count, base - base % (2 * TICK));
    }
    poll_to(end, false, 0);
    printf("done %lu %lu %llu\n", accesses, bytes, (unsigned long long)stamp());
    kbd48_close(&k);
    return 0;
}
