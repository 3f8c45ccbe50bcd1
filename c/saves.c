/* Bytes that are nearly a saved keyboard: kbd48_load refuses them by name and leaves the handle as it was, or opens a
   keyboard whose save is read as the same keyboard, and which goes on as any other. And each byte of a saved queue turned round:
   kbd48_load_keys refuses it by name and leaves the queue as it was, or its save has the same bytes again.
   saves HEX COUNT SEED */
#include "kbd48.h"
#include <stdio.h>
#include <stdlib.h>
#include <string.h>

#define CHECK(x) \
    do { \
        if (!(x)) { \
            fprintf(stderr, "saves: save %lu of seed %lu: %s\n", number, seed, #x); \
            exit(1); \
        } \
    } while (0)

enum { FIXED = 127, STATUSES = 24 }; /* the first bytes have most of the state: they change more often than the others */

static unsigned long number, seed, tally[STATUSES];
static uint64_t state;
static uint8_t bytes[KBD48_SAVED + 1], before[KBD48_SAVED], after[KBD48_SAVED];

static uint32_t random_below(uint32_t most) { /* xorshift64*: the high half of the product */
    state ^= state >> 12, state ^= state << 25, state ^= state >> 27;
    return (uint32_t)((state * 2685821657736338717u) >> 32) % most;
}

/* Calls that a keyboard is in use by. Whatever they return, they return. */
static void use(kbd48 *k) {
    uint64_t passed;
    kbd48_spot spot;
    kbd48_item item;
    uint16_t word;
    uint8_t byte;
    switch (random_below(8)) {
    case 0: kbd48_key(k, (uint8_t)random_below(97), random_below(2)); break;
    case 1: kbd48_write(k, random_below(2) ? 0x60 : 0x64, (uint8_t)random_below(256)); break;
    case 2: kbd48_read60(k, &byte); break;
    case 3: kbd48_bios(k, random_below(2)); break;
    case 4: kbd48_take(k, &word); break;
    case 5: kbd48_next(k, &item); break;
    default: kbd48_run(k, random_below(3000), random_below(2), &passed, &spot); break;
    }
}

/* Changes a few bytes of the save, or how many there are. */
static size_t mutated(void) {
    if (random_below(50) == 0) return random_below(2) ? random_below(KBD48_SAVED) : KBD48_SAVED + 1;
    for (uint32_t many = 1 + random_below(4); many > 0; many--)
        bytes[random_below(random_below(3) ? FIXED : KBD48_SAVED)] = (uint8_t)random_below(random_below(2) ? 256 : 8);
    return KBD48_SAVED;
}

/* What kbd48_load_keys must answer if the byte at a place of a queue with three edges is another. */
static int32_t queue_status(size_t at, uint8_t byte) {
    if (at < 8) return at < 7 ? KBD48_NOT_SAVED : KBD48_OTHER_VERSION;
    if (at == 16) return byte > 160 ? KBD48_BAD_STATE : KBD48_DONE;
    if (at < 29 || at >= 29 + 3 * 10) return KBD48_DONE;
    return ((at - 29) % 10 == 8 && byte > 95) || ((at - 29) % 10 == 9 && byte > 1) ? KBD48_BAD_STATE : KBD48_DONE;
}

/* Each byte of a saved queue with other values: those that are read with all 256. */
static void queues(void) {
    kbd48_keys keys = KBD48_NO_KEYS, kept;
    uint8_t saved[KBD48_SAVED_KEYS + 1], again[KBD48_SAVED_KEYS];
    CHECK(kbd48_queue_key(&keys, 5000, 95, true) == KBD48_DONE && kbd48_queue_key(&keys, 6000, 0, true) == KBD48_DONE);
    CHECK(kbd48_queue_key(&keys, UINT64_MAX, 95, false) == KBD48_DONE);
    kept = keys;
    CHECK(kbd48_save_keys(&keys, saved, KBD48_SAVED_KEYS) == KBD48_DONE);
    for (size_t size = 0; size <= KBD48_SAVED_KEYS + 1; size++)
        CHECK(kbd48_load_keys(&keys, saved, size) == (size == KBD48_SAVED_KEYS ? KBD48_DONE : KBD48_BAD_SIZE));
    for (size_t at = 0; at < KBD48_SAVED_KEYS; at++) {
        uint8_t was = saved[at];
        for (int more = 1; more < 256; more += at < 29 + 3 * 10 ? 1 : 85) {
            saved[at] = (uint8_t)(was + more);
            keys = kept;
            int32_t status = kbd48_load_keys(&keys, saved, KBD48_SAVED_KEYS);
            CHECK(status == queue_status(at, saved[at]));
            if (status != KBD48_DONE) {
                CHECK(!memcmp(&keys, &kept, sizeof keys));
            } else {
                /* the edges after the last are not read, so they are zeros again */
                size_t used = 29 + 10 * (size_t)saved[16];
                CHECK(kbd48_save_keys(&keys, again, sizeof again) == KBD48_DONE && !memcmp(saved, again, used));
            }
        }
        saved[at] = was;
    }
}

int main(int argc, char **argv) {
    static uint8_t hex[16384];
    kbd48 k = KBD48_EMPTY, other = KBD48_EMPTY;
    kbd48_fault fault;
    unsigned long count = argc > 2 ? strtoul(argv[2], NULL, 10) : 100000;
    seed = argc > 3 ? strtoul(argv[3], NULL, 10) : 1;
    state = seed * 0x9e3779b97f4a7c15u + 1;
    FILE *file = fopen(argc > 1 ? argv[1] : "examples/us84.hex", "rb");
    size_t length = file ? fread(hex, 1, sizeof hex, file) : 0;
    CHECK(kbd48_open_hex(hex, length, &k, &fault) == KBD48_DONE && kbd48_copy(&k, &other) == KBD48_DONE);
    CHECK(kbd48_save(&k, before, sizeof before - 1) == KBD48_BAD_SIZE);
    for (number = 0; number < count; number++) {
        for (uint32_t many = random_below(4); many > 0; many--) use(&k);
        CHECK(kbd48_save(&k, bytes, KBD48_SAVED) == KBD48_DONE && kbd48_save(&other, before, sizeof before) == KBD48_DONE);
        size_t size = mutated();
        int32_t status = kbd48_load(&other, bytes, size);
        CHECK(status >= 0 && status < STATUSES && kbd48_save(&other, after, sizeof after) == KBD48_DONE);
        tally[status]++;
        if (status != KBD48_DONE) {
            CHECK(!memcmp(before, after, sizeof before));
        } else {
            CHECK(kbd48_load(&other, after, sizeof after) == KBD48_DONE && kbd48_save(&other, before, sizeof before) == KBD48_DONE);
            CHECK(!memcmp(before, after, sizeof before));
            for (uint32_t many = random_below(8); many > 0; many--) use(&other);
        }
    }
    CHECK(kbd48_close(&k) == KBD48_DONE && kbd48_close(&other) == KBD48_DONE);
    queues();
    CHECK(tally[KBD48_BAD_SIZE] && tally[KBD48_NOT_SAVED] && tally[KBD48_OTHER_VERSION] && tally[KBD48_BAD_STATE]);
    CHECK(tally[0] + tally[KBD48_BAD_SIZE] + tally[KBD48_NOT_SAVED] + tally[KBD48_OTHER_VERSION] + tally[KBD48_BAD_STATE] == count);
    printf("saves: %lu changed saves, %lu of them loaded, the others refused by name\n", count, tally[0]);
}
