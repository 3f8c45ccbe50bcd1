/* Random calls of four keyboards and two queues, with right and wrong arguments and texts: prints a checksum of all statuses,
   values and saves for each thousandth part of them. Two forms of the library that print the same text did the same in each call.
   digest LAYOUT HEX COUNT SEED */
#include "kbd48.h"
#include <stdio.h>
#include <stdlib.h>
#include <string.h>

enum { HANDLES = 4, QUEUES = 2, MOST_BYTES = 70000 };

static uint64_t state, sum = 0xcbf29ce484222325u;
static uint8_t layout[MOST_BYTES], hex[MOST_BYTES], text[MOST_BYTES], saved[KBD48_SAVED + 1];
static size_t layout_length, hex_length;
static kbd48 handles[HANDLES];
static kbd48_keys queues[QUEUES];

static uint32_t random_below(uint32_t most) { /* xorshift64*: the high half of the product */
    state ^= state >> 12, state ^= state << 25, state ^= state >> 27;
    return (uint32_t)((state * 2685821657736338717u) >> 32) % most;
}

static void add(uint64_t number) { /* FNV-1a */
    for (int i = 0; i < 8; i++, number >>= 8) sum = (sum ^ (number & 255)) * 0x100000001b3u;
}
static void add_bytes(const uint8_t *bytes, size_t length) {
    for (size_t i = 0; i < length; i++) sum = (sum ^ bytes[i]) * 0x100000001b3u;
}

static size_t read_file(const char *name, uint8_t *to) {
    FILE *file = fopen(name, "rb");
    if (!file) exit(2);
    size_t length = fread(to, 1, MOST_BYTES, file);
    fclose(file);
    return length;
}

/* One of the two texts, mostly with a few bytes changed, or too long. */
static size_t some_text(const uint8_t *from, size_t length) {
    memcpy(text, from, length);
    uint32_t kind = random_below(8);
    if (kind == 0) return MOST_BYTES;
    for (uint32_t many = kind < 4 ? kind : 0; many > 0; many--) {
        uint32_t at = random_below((uint32_t)length), byte = random_below(128);
        text[at] = (uint8_t)byte;
    }
    return kind == 7 ? random_below((uint32_t)length) : length;
}

static void add_status(int32_t status) { add((uint64_t)(int64_t)status); }

static void opens(kbd48 *k) {
    kbd48_fault fault = {77, 88};
    uint8_t place = 99;
    uint32_t what = random_below(7);
    size_t length = what % 2 ? some_text(hex, hex_length) : some_text(layout, layout_length);
    switch (what) {
    case 0: add_status(kbd48_open_layout(text, length, k, &fault)); break;
    case 1: add_status(kbd48_open_hex(text, length, k, &fault)); break;
    case 2: add_status(kbd48_open_ready_layout(text, length, k, &fault)); break;
    case 3: add_status(kbd48_open_ready_hex(text, length, k, &fault)); break;
    case 4: add_status(kbd48_layout_key(text, length, (const uint8_t *)"lshift", 6 - random_below(2), &place)); break;
    default: add_status(kbd48_open_sample(k)); break;
    }
    add(fault.position), add(fault.number), add(place);
}

static void saves(kbd48 *k, kbd48 *other) {
    size_t length = random_below(8) ? KBD48_SAVED : random_below(KBD48_SAVED + 1);
    int32_t status = kbd48_save(k, saved, length);
    add_status(status), add_bytes(saved, sizeof saved);
    if (random_below(3) == 0) {
        uint32_t at = random_below(random_below(3) ? 127 : KBD48_SAVED), byte = random_below(random_below(2) ? 256 : 8);
        saved[at] = (uint8_t)byte;
    }
    if (random_below(2)) add_status(kbd48_load(other, saved, random_below(16) ? KBD48_SAVED : KBD48_SAVED + 1 - 2 * random_below(2)));
}

static void looks(kbd48 *k) {
    uint64_t cycle = 1, rises = 2, lost = 3;
    uint8_t lights = 4, edges = 5, words = 6, rows = 7, cell = 8, one = 9, two = 10;
    bool up = true, clock = false, data = true;
    kbd48_registers r = {1, 2, 3, 4};
    kbd48_processor p;
    memset(&p, 0, sizeof p);
    uint8_t column = (uint8_t)random_below(14), number = (uint8_t)random_below(140);
    add_status(kbd48_cycle(k, &cycle)), add_status(kbd48_rises(k, &rises)), add_status(kbd48_lost(k, &lost));
    add_status(kbd48_lights(k, &lights)), add_status(kbd48_waiting(k, &edges, &words)), add_status(kbd48_interrupt(k, &up));
    add_status(kbd48_wires(k, &clock, &data)), add_status(kbd48_pulls(k, &one, &two)), add_status(kbd48_look(k, &r));
    add_status(kbd48_inside(k, &p)), add_status(kbd48_column(k, column, &rows)), add_status(kbd48_cell(k, number, &cell));
    add(cycle), add(rises), add(lost), add(lights), add(edges), add(words), add(up), add(clock), add(data), add(one), add(two);
    add(r.status), add(r.output), add(r.command_byte), add(r.output_port), add(rows), add(cell);
    const uint64_t inside[] = {p.counter, p.byte, p.a, p.carry, p.half_carry, p.f0, p.f1, p.register_bank, p.memory_bank, p.stack,
        p.t, p.prescaler, p.counts, p.timer_flag, p.external_on, p.timer_on, p.request, p.service, p.p1, p.p2, p.bus};
    for (size_t i = 0; i < sizeof inside / sizeof *inside; i++) add(inside[i]);
}

static void add_queue(const kbd48_keys *q) {
    add(q->ready), add(q->count), add_bytes((const uint8_t *)q->down, sizeof q->down);
    for (int i = 0; i < 160; i++) add(q->edges[i].stamp), add(q->edges[i].place), add(q->edges[i].down);
}

static void saves_of_the_queue(kbd48_keys *q) {
    static uint8_t bytes[KBD48_SAVED_KEYS + 1];
    size_t length = random_below(8) ? KBD48_SAVED_KEYS : random_below(KBD48_SAVED_KEYS);
    add_status(kbd48_save_keys(q, bytes, length)), add_bytes(bytes, sizeof bytes);
    if (random_below(2)) {
        uint32_t at = random_below(random_below(3) ? 60 : KBD48_SAVED_KEYS), byte = random_below(256);
        bytes[at] = (uint8_t)byte;
    }
    length = random_below(16) ? KBD48_SAVED_KEYS : random_below(KBD48_SAVED_KEYS + 2);
    add_status(kbd48_load_keys(q, bytes, length));
}

static void of_the_queue(kbd48 *k, kbd48_keys *q) {
    uint64_t cycle = 0, passed = 5;
    kbd48_spot spot = {6, 7};
    uint8_t count = 8;
    uint32_t what = random_below(8), a = random_below(3000), place = random_below(97), down = random_below(2);
    kbd48_cycle(k, &cycle);
    if (what < 3) add_status(kbd48_queue_key(q, cycle + a, (uint8_t)place, down));
    else if (what < 7) add_status(kbd48_run_keys(k, q, a, down, &passed, &spot));
    else if (place == 0) add_status(kbd48_release_all(q, cycle + a));
    add_status(kbd48_queued(q, &count)), add(count), add(passed), add(spot.counter), add(spot.byte);
    if (a % 16 == 0) saves_of_the_queue(q), add_queue(q);
}

static void host(kbd48 *k) {
    kbd48_item item = {1, 2, 3};
    kbd48_spot spot = {4, 5};
    uint64_t passed = 6;
    uint16_t word = 7;
    uint8_t byte = 8, met = 9;
    uint32_t a = random_below(65536), b = random_below(65536);
    switch (random_below(12)) {
    case 0: add_status(kbd48_key(k, (uint8_t)(a % 97), b & 1)); break;
    case 1: add_status(kbd48_write(k, (uint8_t)(b % 16 ? 0x60 + 4 * (b & 1) : b), (uint8_t)a)); break;
    case 2: add_status(kbd48_read60(k, &byte)); break;
    case 3: add_status(kbd48_status(k, &byte)); break;
    case 4: add_status(kbd48_take(k, &word)); break;
    case 5: add_status(kbd48_bios(k, b & 1)); break;
    case 6: add_status(kbd48_flip(k, (uint8_t)(a % 11))); break;
    case 7: add_status(kbd48_run_to(k, (uint8_t)(b % 16), (uint16_t)(a % 2100), a % 1000, b % 1024, &met, &passed, &spot)); break;
    case 8: add_status(kbd48_run(k, b % 16 ? a % 100 : a % 20000, b & 1, &passed, &spot)); break;
    default: add_status(kbd48_next(k, &item)); break;
    }
    add(item.cycle), add(item.kind), add(item.value), add(spot.counter), add(spot.byte), add(passed), add(word), add(byte), add(met);
}

int main(int argc, char **argv) {
    if (argc != 5) return 2;
    layout_length = read_file(argv[1], layout), hex_length = read_file(argv[2], hex);
    const unsigned long count = strtoul(argv[3], NULL, 10), part = count / 1000 ? count / 1000 : 1;
    state = strtoul(argv[4], NULL, 10) * 0x9e3779b97f4a7c15u + 1;
    add_status(kbd48_version());
    for (unsigned long call = 0; call < count; call++) {
        uint32_t what = random_below(1000);
        kbd48 *k = &handles[random_below(HANDLES)], *other = &handles[random_below(HANDLES)];
        kbd48_keys *queue = &queues[random_below(QUEUES)];
        if (what < 4) opens(k);
        else if (what < 5) add_status(kbd48_close(k));
        else if (what < 6) add_status(kbd48_power_on(k, (uint8_t)random_below(256)));
        else if (what < 16 && k != other) add_status(kbd48_copy(k, other));
        else if (what < 26 && k != other) saves(k, other);
        else if (what < 60) looks(k);
        else if (what < 260) of_the_queue(k, queue);
        else if (what < 262) *queue = (kbd48_keys)KBD48_NO_KEYS;
        else host(k);
        if ((call + 1) % part == 0) printf("%lu %016llx\n", call + 1, (unsigned long long)sum);
    }
    for (int i = 0; i < HANDLES; i++) kbd48_close(&handles[i]);
}
