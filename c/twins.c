/* Random calls: a keyboard and its copy give the same answers and the same log, whatever was called, and looks change
   nothing. Every so often the copy is made anew, by kbd48_copy or of what kbd48_save wrote; and the keyboard itself is
   then loaded of it. Each call's rises are those of the interrupt line.
   twins HEX COUNT SEED */
#include "kbd48.h"
#include <stdio.h>
#include <stdlib.h>
#include <string.h>

#define CHECK(x) \
    do { \
        if (!(x)) { \
            fprintf(stderr, "twins: call %lu of seed %lu: %s\n", call, seed, #x); \
            exit(1); \
        } \
    } while (0)

static unsigned long call, seed;
static uint64_t state;

static uint32_t random_below(uint32_t most) { /* xorshift64*: the high half of the product */
    state ^= state >> 12, state ^= state << 25, state ^= state >> 27;
    return (uint32_t)((state * 2685821657736338717u) >> 32) % most;
}

/* What one call answers, and what is seen after it. */
typedef struct {
    int32_t status;
    uint64_t passed, rises, cycle, lost;
    kbd48_spot spot;
    uint8_t met, byte, lights, edges, words, rows, cell;
    uint16_t word;
    bool up, clock, data;
    uint8_t pulls[2];
    kbd48_registers registers;
    kbd48_processor inside;
    kbd48_item items[65];
    int32_t last;
    size_t count;
} seen;

static void look(kbd48 *k, seen *s, uint8_t column, uint8_t cell) {
    kbd48_rises(k, &s->rises), kbd48_cycle(k, &s->cycle), kbd48_lights(k, &s->lights), kbd48_interrupt(k, &s->up);
    kbd48_wires(k, &s->clock, &s->data), kbd48_waiting(k, &s->edges, &s->words), kbd48_look(k, &s->registers);
    kbd48_pulls(k, &s->pulls[0], &s->pulls[1]), kbd48_lost(k, &s->lost), kbd48_inside(k, &s->inside), kbd48_column(k, column, &s->rows), kbd48_cell(k, cell, &s->cell);
}

static void act(kbd48 *k, seen *s, uint32_t what, uint32_t a, uint32_t b) {
    switch (what) {
    case 0: s->status = kbd48_key(k, (uint8_t)(a % 97), b & 1); break;
    case 1: s->status = kbd48_write(k, b & 1 ? 0x60 : 0x64, (uint8_t)a); break;
    case 2: s->status = kbd48_read60(k, &s->byte); break;
    case 3: s->status = kbd48_status(k, &s->byte); break;
    case 4: s->status = kbd48_take(k, &s->word); break;
    case 5: s->status = kbd48_bios(k, b & 1); break;
    case 6: s->status = kbd48_run(k, a % 100, b & 1, &s->passed, &s->spot); break;
    case 7: s->status = kbd48_flip(k, (uint8_t)(a % 11)); break;
    case 8:
        s->status = kbd48_run_to(k, (uint8_t)(b % 16), (uint16_t)(a % 2048), a % 4000, b % 4096, &s->met, &s->passed, &s->spot);
        break;
    default: s->status = kbd48_run(k, a % 20000, b & 1, &s->passed, &s->spot); break;
    }
}

static bool is_saved_alike(kbd48 *k, kbd48 *other) {
    static uint8_t one[KBD48_SAVED], two[KBD48_SAVED];
    return kbd48_save(k, one, sizeof one) == KBD48_DONE && kbd48_save(other, two, sizeof two) == KBD48_DONE &&
           !memcmp(one, two, sizeof one);
}

/* Makes the copy anew: one time by kbd48_copy, the next of a save, and the next of a save into both. */
static bool copied(kbd48 *k, kbd48 *copy, unsigned long time) {
    static uint8_t bytes[KBD48_SAVED];
    if (time % 3 == 0) return kbd48_copy(k, copy) == KBD48_DONE;
    return kbd48_save(k, bytes, sizeof bytes) == KBD48_DONE && kbd48_load(copy, bytes, sizeof bytes) == KBD48_DONE &&
           (time % 3 == 1 || kbd48_load(k, bytes, sizeof bytes) == KBD48_DONE);
}

static void drain(kbd48 *k, seen *s) {
    while ((s->last = kbd48_next(k, &s->items[s->count])) == KBD48_DONE) s->count++;
}

int main(int argc, char **argv) {
    static uint8_t hex[16384];
    static seen one, other, again;
    kbd48 k = KBD48_EMPTY, copy = KBD48_EMPTY;
    kbd48_fault fault;
    unsigned long count = argc > 2 ? strtoul(argv[2], NULL, 10) : 100000, rises = 0, items = 0;
    seed = argc > 3 ? strtoul(argv[3], NULL, 10) : 1;
    state = seed * 0x9e3779b97f4a7c15u + 1;
    FILE *file = fopen(argc > 1 ? argv[1] : "examples/us84.hex", "rb");
    size_t length = file ? fread(hex, 1, sizeof hex, file) : 0;
    CHECK(kbd48_open_hex(hex, length, &k, &fault) == KBD48_DONE);
    for (call = 0; call < count; call++) {
        uint32_t what = random_below(10), a = random_below(65536), b = random_below(65536);
        uint8_t column = (uint8_t)random_below(12), cell = (uint8_t)random_below(128);
        if (call % 97 == 0) CHECK(copied(&k, &copy, call / 97) && is_saved_alike(&k, &copy));
        if (call % 89 == 0) drain(&k, &one), drain(&copy, &other), items += one.count;
        bool was;
        CHECK(kbd48_interrupt(&k, &was) == KBD48_DONE);
        act(&k, &one, what, a, b), act(&copy, &other, what, a, b);
        look(&k, &one, column, cell), look(&copy, &other, column, cell);
        CHECK(!memcmp(&one, &other, sizeof one));
        again = one, look(&k, &again, column, cell);
        CHECK(!memcmp(&one, &again, sizeof one));
        bool steps = what != 0 && one.status != KBD48_FULL && one.status != KBD48_NO_SUCH_BIT;
        CHECK(one.clock == !((one.pulls[0] | one.pulls[1]) & 1) && one.data == !((one.pulls[0] | one.pulls[1]) & 2));
        if (steps && !was && one.up) CHECK(one.rises > 0);
        if (one.status == KBD48_ROSE) CHECK(one.rises == 1 && one.up);
        if (what == 8 && (b & KBD48_STOP_RISE)) CHECK(one.rises == (one.met & KBD48_STOP_RISE));
        if (steps) rises += one.rises;
        one.count = other.count = 0;
        memset(one.items, 0, sizeof one.items), memset(other.items, 0, sizeof other.items);
    }
    CHECK(kbd48_close(&k) == KBD48_DONE && kbd48_close(&copy) == KBD48_DONE);
    CHECK(rises > 0 && items > 0);
    printf("twins: %lu random calls of a keyboard and its copies and saves, %lu rises and %lu items, differ nowhere\n", call, rises, items);
}
