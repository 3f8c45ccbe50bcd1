/* Calls of the C library, for bench/count: calls HEX ROW COUNT makes COUNT of them, and prints of how many steps, calls or
   items that was. A row that ends in _steps only counts the steps of another, one by one. */
#include "kbd48.h"
#include <inttypes.h>
#include <stdio.h>
#include <stdlib.h>
#include <string.h>

enum { SECOND = 400000, STROKE = 4000, SLICE = 64, EDGE = 4480, KEPT = 64 };

static kbd48 keyboard = KBD48_EMPTY, other = KBD48_EMPTY;

static void need(int32_t status) {
    if (status == KBD48_DONE) return;
    fprintf(stderr, "calls: %s\n", kbd48_text(status));
    exit(1);
}

/* Runs for so many cycles in one call, or step by step. How many steps that was, if they were counted. */
static uint64_t run(uint64_t cycles, bool one_by_one) {
    uint64_t passed, steps = 0, all = 0;
    kbd48_spot place;
    if (!one_by_one) {
        need(kbd48_run(&keyboard, cycles, false, &passed, &place));
        return 0;
    }
    for (; all < cycles; all += passed, steps++) need(kbd48_run(&keyboard, 1, false, &passed, &place));
    return steps;
}

/* A key goes down and up each 20 ms. */
static uint64_t strokes(uint64_t seconds, bool one_by_one) {
    uint64_t steps = 0;
    for (uint64_t i = 0; i < seconds * SECOND / (2 * STROKE); i++) {
        uint8_t place = (uint8_t)(29 + i % 8);
        need(kbd48_key(&keyboard, place, true)), steps += run(STROKE, one_by_one);
        need(kbd48_key(&keyboard, place, false)), steps += run(STROKE, one_by_one);
    }
    return steps;
}

/* So many calls of 64 cycles. */
static uint64_t slices(uint64_t count) {
    for (uint64_t i = 0; i < count; i++) run(SLICE, false);
    return count;
}

/* Runs of so many cycles, without a queue or with one, and before each an edge of a key, if there are to be any. */
static uint64_t keyed(uint64_t count, uint64_t cycles, bool queue, bool edges) {
    static kbd48_keys keys = KBD48_NO_KEYS;
    for (uint64_t i = 0; i < count; i++) {
        uint64_t passed, now;
        kbd48_spot spot;
        bool down = i % 2 == 0;
        need(kbd48_cycle(&keyboard, &now));
        if (edges) need(queue ? kbd48_queue_key(&keys, now, 34, down) : kbd48_key(&keyboard, 34, down));
        need(queue ? kbd48_run_keys(&keyboard, &keys, cycles, false, &passed, &spot) : kbd48_run(&keyboard, cycles, false, &passed, &spot));
    }
    return count;
}

/* So many steps, up to which nothing happens that the mask asks for. */
static uint64_t steps_to(uint64_t steps, uint8_t mask) {
    uint64_t passed;
    kbd48_spot place;
    uint8_t met;
    need(kbd48_run_to(&keyboard, mask, 0, UINT64_MAX, steps, &met, &passed, &place));
    if (met) exit(1);
    return steps;
}

static uint64_t looks(uint64_t count) {
    kbd48_registers registers;
    for (uint64_t i = 0; i < count; i++) need(kbd48_look(&keyboard, &registers));
    return count;
}

static uint64_t insides(uint64_t count) {
    kbd48_processor inside;
    for (uint64_t i = 0; i < count; i++) need(kbd48_inside(&keyboard, &inside));
    return count;
}

/* Copies of a keyboard with 64 items, of each of which so many are handed out. */
static uint64_t copies(uint64_t count, int drained) {
    kbd48_item item;
    uint8_t byte;
    while (kbd48_next(&keyboard, &item) == KBD48_DONE) continue;
    for (int i = 0; i < KEPT; i++) need(kbd48_status(&keyboard, &byte));
    for (uint64_t i = 0; i < count; i++) {
        need(kbd48_copy(&keyboard, &other));
        for (int n = 0; n < drained; n++) need(kbd48_next(&other, &item));
    }
    return drained ? count * (uint64_t)drained : count;
}

/* Saves of the keyboard, of each of which a keyboard is loaded, if asked for. */
static uint64_t saves(uint64_t count, bool loaded) {
    static uint8_t bytes[KBD48_SAVED];
    for (uint64_t i = 0; i < count; i++) {
        need(kbd48_save(&keyboard, bytes, sizeof bytes));
        if (loaded) need(kbd48_load(&other, bytes, sizeof bytes));
    }
    return count;
}

static uint64_t made(const char *row, uint64_t count) {
    if (!strcmp(row, "idle")) return run(count * SECOND, false);
    if (!strcmp(row, "idle_steps")) return run(count * SECOND, true);
    if (!strcmp(row, "keys")) return strokes(count, false);
    if (!strcmp(row, "keys_steps")) return strokes(count, true);
    if (!strcmp(row, "one")) return run(count, true);
    if (!strcmp(row, "slices")) return slices(count);
    if (!strcmp(row, "slices_steps")) return run(count * SLICE, true);
    if (!strcmp(row, "queue")) return keyed(count, 1, true, false);
    if (!strcmp(row, "no_queue")) return keyed(count, 1, false, false);
    if (!strcmp(row, "edges")) return keyed(count, EDGE, false, true);
    if (!strcmp(row, "no_edges")) return keyed(count, EDGE, false, false);
    if (!strcmp(row, "queue_edges")) return keyed(count, EDGE, true, true);
    if (!strcmp(row, "queue_no_edges")) return keyed(count, EDGE, true, false);
    if (!strcmp(row, "to_item")) return steps_to(count, KBD48_STOP_ITEM | KBD48_STOP_RISE | KBD48_STOP_WIRES);
    if (!strcmp(row, "to_place")) return steps_to(count, KBD48_STOP_COUNTER);
    if (!strcmp(row, "look")) return looks(count);
    if (!strcmp(row, "inside")) return insides(count);
    if (!strcmp(row, "copy")) return copies(count, 0);
    if (!strcmp(row, "save")) return saves(count, false);
    if (!strcmp(row, "load")) return saves(count, true);
    if (!strcmp(row, "drain")) return copies(count, KEPT);
    fprintf(stderr, "calls: no such row: %s\n", row);
    exit(2);
}

int main(int argc, char **argv) {
    static uint8_t text[16384];
    kbd48_fault fault;
    uint8_t byte;
    FILE *file = argc == 4 ? fopen(argv[1], "rb") : NULL;
    if (!file) return 2;
    size_t length = fread(text, 1, sizeof text, file);
    fclose(file);
    need(kbd48_open_ready_hex(text, length, &keyboard, &fault));
    need(kbd48_read60(&keyboard, &byte)); /* a program without a keyboard puts out nothing, and 00 is read */
    need(kbd48_bios(&keyboard, true));
    run(SECOND, false);
    printf("%" PRIu64 "\n", made(argv[2], strtoull(argv[3], NULL, 10)));
    return 0;
}
