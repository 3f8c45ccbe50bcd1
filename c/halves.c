/* Tries the two halves as their callers use them. First each call by itself. Then both, joined by the loop of kbd48_halves.h,
   against the library of kbd48.h in random calls: after each call the answers and all bytes that a save has of keyboard and
   controller are the same. A second controller beside gets the same calls, but has other pins, and differs in what C0 puts out
   alone. Every so often all go back to a save, to a copy, or to power-on. For how long the keyboard rests is compared with plain
   steps. Then keys go through both queues: that of kbd48.h, and that of kbd48_halves.h.
   halves HEX COUNT SEED */
#include "kbd48.h"
#include "kbd48_halves.h"
#include <stdio.h>
#include <stdlib.h>
#include <string.h>

#define CHECK(x) \
    do { \
        if (!(x)) { \
            fprintf(stderr, "halves: call %lu of seed %lu: %s\n", call, seed, #x); \
            exit(1); \
        } \
    } while (0)

/* OUTPUT is the place of the output buffer's byte in a save, DEBOUNCE that of a layout's debounce in its program. */
enum { STAMP_0 = 4096, ITEMS = 64, EDGES = 4, TWIN_PINS = 0x4a, OUTPUT = 3, DEBOUNCE = 0x3f2 };

static unsigned long call, seed = 1, loads, steps_made, items_said, rests_tried, edges_taken, pins_read;
static uint64_t state;

static uint32_t random_below(uint32_t most) { /* xorshift64*: the high half of the product */
    state ^= state >> 12, state ^= state << 25, state ^= state >> 27;
    return (uint32_t)((state * 2685821657736338717u) >> 32) % most;
}

/* Both halves, the controller with other pins, their cycle, the edges of keys that wait for a step, the lights that were seen
   last, and whether INT 09h is masked: it reads a byte 64 cycles after it was put out. */
typedef struct {
    kbd48_keyboard keyboard;
    kbd48_controller controller, twin;
    uint64_t now;
    struct {
        uint8_t place;
        bool down;
    } edges[EDGES];
    uint8_t waiting, shown;
    bool masked;
} board;

static board joined = {.keyboard = KBD48_NO_KEYBOARD, .controller = KBD48_NO_CONTROLLER, .twin = KBD48_NO_CONTROLLER}, kept;
static kbd48_program program;
static kbd48_item items[ITEMS];
static unsigned said;

/* Notes what is said. The library keeps 64 items, too. */
static void says(uint64_t cycle, uint8_t kind, uint16_t value) {
    if (said == ITEMS) return;
    items[said].cycle = cycle, items[said].kind = kind, items[said++].value = value;
}

/* What the host does in a cycle. */
typedef enum { NOTHING, DATA, COMMAND, READ, STATUS, FLIP, MASK, UNMASK, TAKE } act;

static uint8_t acts(board *b, act what, uint8_t given) {
    kbd48_controller_shown shown;
    switch (what) {
    case NOTHING: case TAKE: break;
    case MASK: b->masked = true; break;
    case UNMASK: b->masked = false; break;
    case DATA: case COMMAND:
        CHECK(kbd48_controller_write(&b->controller, what == COMMAND, given) == 1);
        CHECK(kbd48_controller_write(&b->twin, what == COMMAND, given) == 1);
        break;
    case READ:
        given = kbd48_controller_read60(&b->controller), says(b->now, KBD48_ITEM_READ, given);
        kbd48_controller_read60(&b->twin);
        break;
    case STATUS:
        kbd48_controller_registers(&b->controller, &shown);
        given = shown.status, says(b->now, KBD48_ITEM_STATUS, given);
        break;
    case FLIP: CHECK(kbd48_controller_flip(&b->controller, given) == 1 && kbd48_controller_flip(&b->twin, given) == 1); break;
    }
    return given;
}

static void did(uint64_t now, int32_t answer) {
    if (KBD48_DID(answer) == KBD48_DID_OUTPUT) says(now, KBD48_ITEM_OUTPUT, KBD48_DID_BYTE(answer));
    if (KBD48_DID(answer) == KBD48_DID_PULSE) says(now, KBD48_ITEM_PULSE, KBD48_DID_BYTE(answer));
}

static uint32_t wires(board *b) {
    return kbd48_keyboard_drive(&b->keyboard) & kbd48_controller_drive(&b->controller);
}

/* The cycle in which the output buffer was filled last, as its bytes: the line may fall and rise within a step. */
static uint64_t filled(board *b) {
    kbd48_controller_saved saved;
    uint64_t cycle = 0;
    kbd48_controller_save(&b->controller, &saved);
    for (int i = 7; i >= 0; i--) cycle = cycle << 8 | saved.end[i];
    return cycle;
}

/* The loop of kbd48_halves.h, once; the host acts in the first cycle. What the act read is in `byte`. */
static uint32_t step(board *b, act what, uint8_t *byte) {
    for (unsigned i = 0; i < b->waiting; i++) kbd48_keyboard_key(&b->keyboard, b->edges[i].place, b->edges[i].down);
    b->waiting = 0;
    uint32_t cycles = kbd48_keyboard_step(&b->keyboard, wires(b));
    uint8_t lights = kbd48_keyboard_lights(&b->keyboard);
    if (cycles && lights != b->shown) says(b->now, KBD48_ITEM_LIGHTS, lights), b->shown = lights;
    for (uint32_t i = 0; i < cycles; i++) {
        kbd48_controller_look(&b->twin, b->now, wires(b));
        kbd48_controller_look(&b->controller, b->now, wires(b));
        if (i == 0) *byte = acts(b, what, *byte);
        bool interrupts = !b->masked && kbd48_controller_interrupt(&b->controller) && b->now >= filled(b) + 64;
        if (interrupts) kbd48_controller_read60(&b->controller), kbd48_controller_read60(&b->twin);
        int32_t done = kbd48_controller_settle(&b->controller, b->now);
        CHECK(kbd48_controller_settle(&b->twin, b->now) == done);
        did(b->now, done);
        b->now++;
    }
    steps_made++;
    return cycles;
}

static uint64_t run(board *b, uint64_t cycles, bool watched, bool *rose) {
    uint64_t from = b->now;
    uint8_t byte = 0;
    for (*rose = false; b->now - from < cycles && !*rose;) {
        bool was = kbd48_controller_interrupt(&b->controller);
        uint64_t then = watched ? filled(b) : 0;
        CHECK(step(b, NOTHING, &byte));
        if (watched) *rose = kbd48_controller_interrupt(&b->controller) && (!was || filled(b) != then);
    }
    return b->now - from;
}

/* As kbd48_power_on: up to stamp 0, and a step more, in which INT 09h is masked. */
static void switch_on(board *b, uint8_t fill) {
    uint8_t byte = 0;
    kbd48_keyboard_open(&b->keyboard, &program, fill);
    kbd48_controller_reset(&b->controller), kbd48_controller_reset(&b->twin);
    b->now = b->waiting = b->shown = 0, said = 0, b->masked = false;
    while (b->now < STAMP_0) CHECK(step(b, NOTHING, &byte));
    CHECK(step(b, MASK, &byte));
}

/* The controller with other pins differs in what C0 put out, and in nothing else. */
static void is_twin(kbd48_controller_saved *saved, board *b) {
    kbd48_controller_saved twin;
    kbd48_controller_save(&b->twin, &twin);
    CHECK(saved->pins == 0xb0 && twin.pins == TWIN_PINS);
    if (twin.buffers[OUTPUT] != saved->buffers[OUTPUT]) {
        CHECK(twin.buffers[OUTPUT] == TWIN_PINS && saved->buffers[OUTPUT] == 0xb0);
        pins_read++;
    }
    twin.buffers[OUTPUT] = saved->buffers[OUTPUT], twin.pins = saved->pins;
    CHECK(!memcmp(&twin, saved, sizeof twin));
}

/* The bytes of a saved keyboard that are those of the two halves. */
static void is_alike(kbd48 *k, board *b) {
    static uint8_t bytes[KBD48_SAVED];
    kbd48_keyboard_saved keyboard;
    kbd48_controller_saved controller;
    CHECK(kbd48_save(k, bytes, sizeof bytes) == KBD48_DONE);
    kbd48_keyboard_save(&b->keyboard, &keyboard);
    kbd48_controller_save(&b->controller, &controller);
    uint64_t cycle;
    CHECK(kbd48_cycle(k, &cycle) == KBD48_DONE && cycle == b->now);
    CHECK(!memcmp(bytes + 40, keyboard.chip.processor, 19) && !memcmp(bytes + 901, keyboard.chip.ram, 128));
    CHECK(!memcmp(bytes + 59, keyboard.columns, 12) && !memcmp(bytes + 71, controller.buffers, 11));
    CHECK(!memcmp(bytes + 82, controller.end, 12) && !memcmp(bytes + 101, controller.link, 23));
    CHECK(bytes[94] == b->shown && bytes[95] == b->masked && bytes[125] == b->waiting);
    is_twin(&controller, b);
}

/* What is seen without a step. */
static void looks_alike(kbd48 *k, board *b) {
    kbd48_registers theirs;
    kbd48_controller_shown ours;
    uint8_t lights, keyboard, controller;
    bool up, clock, data;
    CHECK(!kbd48_look(k, &theirs) && !kbd48_interrupt(k, &up) && !kbd48_lights(k, &lights));
    CHECK(!kbd48_wires(k, &clock, &data) && !kbd48_pulls(k, &keyboard, &controller));
    kbd48_controller_registers(&b->controller, &ours);
    CHECK(theirs.status == ours.status && theirs.output == ours.output && theirs.command_byte == ours.command_byte);
    CHECK(theirs.output_port == ours.output_port && up == kbd48_controller_interrupt(&b->controller));
    CHECK(lights == b->shown && wires(b) == ((uint32_t)clock | (uint32_t)data << 1));
    CHECK(kbd48_keyboard_drive(&b->keyboard) == (3u ^ keyboard) && kbd48_controller_drive(&b->controller) == (3u ^ controller));
}

/* Of what the log says, what the halves say too; up to where the library lost items. */
static void says_alike(kbd48 *k) {
    kbd48_item item;
    int32_t status;
    unsigned count = 0;
    while ((status = kbd48_next(k, &item)) == KBD48_DONE) {
        if (item.kind != KBD48_ITEM_READ && item.kind != KBD48_ITEM_STATUS && item.kind != KBD48_ITEM_LIGHTS &&
            item.kind != KBD48_ITEM_OUTPUT && item.kind != KBD48_ITEM_PULSE) continue;
        CHECK(count < said && item.cycle == items[count].cycle);
        CHECK(item.kind == items[count].kind && item.value == items[count].value);
        count++;
    }
    CHECK(status == KBD48_LOST || count == said);
    items_said += count, said = 0;
}

/* A call of the host that makes a step. */
static void hosts(kbd48 *k, board *b, act what, uint8_t given) {
    kbd48_controller_shown shown;
    uint8_t byte = given, theirs = given;
    uint16_t word;
    int32_t status = KBD48_DONE;
    kbd48_controller_registers(&b->controller, &shown);
    switch (what) {
    case NOTHING: return;
    case DATA: status = kbd48_write(k, 0x60, given); break;
    case COMMAND: status = kbd48_write(k, 0x64, given); break;
    case READ: status = kbd48_read60(k, &theirs); break;
    case STATUS: status = kbd48_status(k, &theirs); break;
    case FLIP: status = kbd48_flip(k, given); break;
    case MASK: case UNMASK: status = kbd48_bios(k, what == UNMASK); break;
    case TAKE: status = kbd48_take(k, &word) == KBD48_NO_WORD ? KBD48_DONE : status; break;
    }
    if ((what == DATA || what == COMMAND) && (shown.status & 2)) {
        CHECK(status == KBD48_FULL && kbd48_controller_write(&b->controller, what == COMMAND, given) == 0);
    } else if (what == FLIP && (given < 1 || given > 9)) {
        CHECK(status == KBD48_NO_SUCH_BIT && kbd48_controller_flip(&b->controller, given) == 0);
    } else {
        CHECK(status == KBD48_DONE && step(b, what, &byte) && byte == theirs);
    }
}

static void keys(kbd48 *k, board *b, uint8_t place, bool down) {
    int32_t status = kbd48_key(k, place, down);
    if (place > 95) {
        CHECK(status == KBD48_NO_SUCH_PLACE && kbd48_keyboard_key(&b->keyboard, place, down) == 0);
    } else if (b->waiting == EDGES) {
        CHECK(status == KBD48_FULL);
    } else {
        CHECK(status == KBD48_DONE);
        b->edges[b->waiting].place = place, b->edges[b->waiting++].down = down;
    }
}

static void runs(kbd48 *k, board *b, uint64_t cycles, bool watched) {
    uint64_t passed;
    kbd48_spot spot;
    bool rose;
    int32_t status = kbd48_run(k, cycles, watched, &passed, &spot);
    CHECK(run(b, cycles, watched, &rose) == passed && status == (rose ? KBD48_ROSE : KBD48_DONE));
}

/* Both go back, in one of four ways. */
static void goes_back(kbd48 *k, kbd48 *other, board *b, uint32_t how, uint8_t fill) {
    static uint8_t bytes[KBD48_SAVED];
    kbd48_keyboard_saved keyboard;
    kbd48_controller_saved controller;
    loads++;
    switch (how) {
    case 0:
        CHECK(kbd48_copy(k, other) == KBD48_DONE);
        kept = *b;
        break;
    case 1:
        CHECK(kbd48_copy(other, k) == KBD48_DONE);
        *b = kept;
        break;
    case 2:
        CHECK(kbd48_save(k, bytes, sizeof bytes) == KBD48_DONE && kbd48_load(k, bytes, sizeof bytes) == KBD48_DONE);
        kbd48_keyboard_save(&b->keyboard, &keyboard), kbd48_controller_save(&b->controller, &controller);
        kbd48_keyboard_open(&b->keyboard, &program, fill), memset(&b->controller, 0, sizeof b->controller);
        CHECK(kbd48_keyboard_load(&b->keyboard, &keyboard) == 1 && kbd48_controller_load(&b->controller, &controller) == 1);
        kbd48_controller_save(&b->twin, &controller), memset(&b->twin, 0, sizeof b->twin);
        CHECK(kbd48_controller_load(&b->twin, &controller) == 1);
        break;
    default:
        CHECK(kbd48_power_on(k, fill) == KBD48_DONE);
        switch_on(b, fill);
        break;
    }
}

static void calls(kbd48 *k, kbd48 *other, board *b) {
    static const uint8_t commands[] = {0x20, 0x60, 0xaa, 0xab, 0xad, 0xae, 0xae, 0xc0, 0xd0, 0xd1, 0xf0, 0xfe};
    static const uint8_t bytes[] = {0xed, 0x07, 0xee, 0xf0, 0xf2, 0xf3, 0x20, 0xf4, 0xf5, 0xf6, 0xfe, 0xff, 0x45, 0x44};
    uint32_t what = random_below(64), a = random_below(65536), c = random_below(65536);
    uint8_t given = (uint8_t)a;
    if (what < 10) keys(k, b, (uint8_t)(a % 97), c & 1);
    else if (what < 12) hosts(k, b, DATA, c & 1 ? given : bytes[a % sizeof bytes]);
    else if (what < 14) hosts(k, b, COMMAND, c & 3 ? commands[a % sizeof commands] : given);
    else if (what < 22) hosts(k, b, READ, 0);
    else if (what < 26) hosts(k, b, STATUS, 0);
    else if (what < 27) hosts(k, b, FLIP, (uint8_t)(a % 11));
    else if (what < 28) hosts(k, b, c % 4 ? MASK : UNMASK, 0);
    else if (what < 29) hosts(k, b, TAKE, 0);
    else if (what < 57) runs(k, b, a % 80, c & 1);
    else if (what < 62) runs(k, b, a % 800, c & 1);
    else if (what < 63) runs(k, b, c % 16 ? a % 4000 : a % 20000, c & 1);
    else if (a % 4 != 3 || c % 16 == 0) goes_back(k, other, b, a % 4, (uint8_t)c);
}

/* What the library doesn't have: refusals of a load, with nothing changed; and what a half begins as. */
static void refusals(void) {
    static const struct {
        uint8_t group, at, byte;
        bool is_taken;
    } states[] = {{0, 1, 0x0f, true}, {0, 1, 0x10, false}, {0, 7, 0x1f, true}, {0, 7, 0x20, false},
                  {0, 3, 0xf7, false}, {1, 3, 0xa5, true}, {2, 2, 1, false}, {2, 2, 2, true},
                  {4, 10, 10, true}, {4, 10, 11, false}, {4, 0, 0xff, true}, {3, 0, 9, true}};
    kbd48_keyboard_saved keyboard;
    kbd48_controller_saved controller;
    kbd48_controller none = KBD48_NO_CONTROLLER;
    struct {
        kbd48_controller it;
        uint8_t beyond[64];
    } walled = {.it = KBD48_NO_CONTROLLER};
    static const uint8_t zeros[46];
    kbd48_controller_save(&none, &controller);
    CHECK(!memcmp(&controller, zeros, sizeof zeros) && controller.pins == 0xb0 && sizeof controller == sizeof zeros + 1);
    memset(walled.beyond, 0xa5, sizeof walled.beyond);
    for (unsigned i = 0; i < sizeof states / sizeof *states; i++) {
        board b = joined, before;
        kbd48_controller_reset(&b.controller), kbd48_controller_pins(&b.controller, 0x80);
        before = b;
        kbd48_keyboard_save(&b.keyboard, &keyboard), kbd48_controller_save(&b.controller, &controller);
        uint8_t *groups[] = {keyboard.chip.processor, keyboard.columns, controller.buffers, controller.end, controller.link};
        groups[states[i].group][states[i].at] = states[i].byte;
        CHECK(kbd48_keyboard_load(&b.keyboard, &keyboard) == (states[i].group > 1 || states[i].is_taken));
        CHECK(kbd48_controller_load(&b.controller, &controller) == (states[i].group < 2 || states[i].is_taken));
        CHECK(states[i].is_taken || !memcmp(&b, &before, sizeof b));
        walled.it = b.controller;
        for (uint64_t now = 0; now < 200; now++) {
            kbd48_controller_look(&walled.it, now, (uint32_t)now / 4 & 3);
            kbd48_controller_write(&walled.it, now & 1, (uint8_t)now), kbd48_controller_read60(&walled.it);
            kbd48_controller_settle(&walled.it, now);
        }
    }
    kbd48_controller_load(&walled.it, &controller), kbd48_controller_reset(&walled.it);
    for (unsigned i = 0; i < sizeof walled.beyond; i++) CHECK(walled.beyond[i] == 0xa5);
}

/* Command C0 puts out the pins, B0 unless they were set. A reset leaves them, and a load brings them back. No other byte reads
   them: not C0 to port 60h, which is for the keyboard, and not D0. */
static void reads_pins(void) {
    static const uint8_t others[][3] = {{0, 0xc0, 0x00}, {1, 0xd0, 0xcf}, {1, 0x20, 0x45}, {1, 0xaa, 0x55}, {1, 0xc1, 0x00}};
    for (unsigned pins = 0; pins < 257; pins++) {
        kbd48_controller c = KBD48_NO_CONTROLLER, loaded = KBD48_NO_CONTROLLER;
        kbd48_controller_saved saved;
        kbd48_controller_shown shown;
        uint8_t read = pins == 256 ? 0xb0 : (uint8_t)pins;
        kbd48_controller_reset(&c);
        if (pins < 256) kbd48_controller_pins(&c, read), kbd48_controller_reset(&c);
        kbd48_controller_save(&c, &saved);
        CHECK(saved.pins == read && kbd48_controller_load(&loaded, &saved) == 1);
        CHECK(kbd48_controller_write(&loaded, true, 0xc0) == 1);
        kbd48_controller_look(&loaded, 0, KBD48_RELEASED);
        CHECK(KBD48_DID(kbd48_controller_settle(&loaded, 0)) == KBD48_DID_NOTHING && kbd48_controller_interrupt(&loaded));
        kbd48_controller_registers(&loaded, &shown);
        CHECK(shown.status == 0x1d && shown.output == read && kbd48_controller_read60(&loaded) == read);
        for (unsigned i = 0; i < sizeof others / sizeof *others; i++) {
            kbd48_controller other = c;
            CHECK(kbd48_controller_write(&other, others[i][0], others[i][1]) == 1);
            kbd48_controller_look(&other, 0, KBD48_RELEASED), kbd48_controller_settle(&other, 0);
            kbd48_controller_registers(&other, &shown);
            CHECK(shown.output == others[i][2]);
        }
    }
}

/* What kbd48_keyboard_rests is, by plain steps. */
static uint32_t rests_by_steps(kbd48_keyboard k, uint32_t levels, uint32_t most) {
    uint32_t drive = kbd48_keyboard_drive(&k), rested = 0;
    uint8_t lights = kbd48_keyboard_lights(&k);
    for (;;) {
        uint32_t cycles = kbd48_keyboard_step(&k, kbd48_keyboard_drive(&k) & levels);
        if (!cycles || rested + cycles > most || kbd48_keyboard_drive(&k) != drive || kbd48_keyboard_lights(&k) != lights) break;
        rested += cycles;
    }
    return rested;
}

static void rests(board *b, uint32_t levels, uint32_t most) {
    static kbd48_keyboard before;
    before = b->keyboard;
    CHECK(kbd48_keyboard_rests(&b->keyboard, levels, most) == rests_by_steps(b->keyboard, levels, most));
    CHECK(!memcmp(&before, &b->keyboard, sizeof before));
    rests_tried++;
}

/* So many cycles of a controller in which nobody acts and the keyboard drives the same levels. */
static void pass_quietly(kbd48_controller *c, uint64_t from, uint32_t cycles, uint32_t levels) {
    for (uint64_t now = from; now < from + cycles; now++) {
        kbd48_controller_look(c, now, levels & kbd48_controller_drive(c));
        CHECK(kbd48_controller_settle(c, now) == KBD48_DID_NOTHING || now == from);
    }
}

/* A controller falls silent in 66 such cycles: after them nothing of it changes in further ones. */
static void falls_silent(const board *b, uint32_t levels) {
    kbd48_controller c = b->controller;
    kbd48_controller_saved then, now;
    pass_quietly(&c, b->now, 66, levels), kbd48_controller_save(&c, &then);
    pass_quietly(&c, b->now + 66, 200, levels), kbd48_controller_save(&c, &now);
    CHECK(!memcmp(&then, &now, sizeof now));
}

/* A program that no processor goes on with: the keyboard is stuck, and nothing changes; a reset begins it anew. */
static void sticks(void) {
    static kbd48_program own = {{0x23, 0x5a, 0x01}}; /* MOV A,#5A, and no instruction */
    static kbd48_keyboard k = KBD48_NO_KEYBOARD, before;
    kbd48_keyboard_open(&k, &own, 0x33);
    CHECK(k.chip.a == 0x33 && k.columns[0] == 0xff && k.columns[11] == 0xff && kbd48_keyboard_drive(&k) == KBD48_RELEASED);
    CHECK(kbd48_keyboard_key(&k, 17, true) == 1 && k.columns[2] == 0xfd && kbd48_keyboard_key(&k, 96, true) == 0);
    CHECK(kbd48_keyboard_rests(&k, KBD48_RELEASED, 400000) == 2 && kbd48_keyboard_rests(&k, KBD48_RELEASED, 2) == 2);
    CHECK(kbd48_keyboard_rests(&k, KBD48_RELEASED, 1) == 0 && kbd48_keyboard_rests(&k, KBD48_RELEASED, 0) == 0);
    CHECK(kbd48_keyboard_step(&k, KBD48_RELEASED) == 2 && k.chip.a == 0x5a && k.chip.pc == 2);
    CHECK(kbd48_keyboard_rests(&k, KBD48_RELEASED, 400000) == 0);
    before = k;
    CHECK(kbd48_keyboard_step(&k, KBD48_RELEASED) == 0 && !memcmp(&k, &before, sizeof k));
    kbd48_keyboard_reset(&k);
    CHECK(k.chip.pc == 0 && k.chip.a == 0x5a && k.columns[2] == 0xfd && kbd48_keyboard_lights(&k) == 0);
}

static uint8_t next_byte(board *b) {
    bool rose;
    run(b, 400000, true, &rose);
    CHECK(rose && kbd48_controller_interrupt(&b->controller));
    kbd48_controller_read60(&b->twin);
    return kbd48_controller_read60(&b->controller);
}

/* Without translation the controller gives whole bytes of the keyboard to one that takes no wires, and those of that to it. */
static void whole_bytes(void) {
    static board b = {.keyboard = KBD48_NO_KEYBOARD, .controller = KBD48_NO_CONTROLLER};
    uint8_t place;
    bool rose;
    switch_on(&b, 0);
    acts(&b, COMMAND, 0x60), run(&b, 100, false, &rose);
    acts(&b, DATA, 0x05), run(&b, 100, false, &rose);
    CHECK(next_byte(&b) == 0xaa && kbd48_sample_key((const uint8_t *)"a", 1, &place) == KBD48_DONE);
    CHECK(kbd48_keyboard_key(&b.keyboard, place, true) == 1 && next_byte(&b) == 0x1c);
    CHECK(kbd48_keyboard_key(&b.keyboard, place, false) == 1 && next_byte(&b) == 0xf0 && next_byte(&b) == 0x1c);
    acts(&b, DATA, 0xee);
    CHECK(next_byte(&b) == 0xee);
    said = 0;
}

/* An edge for both queues, and what they answer. */
static void push(kbd48_keys *theirs, kbd48_queue *ours, uint64_t now, uint8_t place, bool down) {
    int32_t status = kbd48_queue_key(theirs, now, place, down);
    switch (kbd48_queue_push(ours, now, place, down)) {
    case KBD48_PUSH_NO_PLACE: CHECK(status == KBD48_NO_SUCH_PLACE && place > 95); break;
    case KBD48_PUSH_WAITS: CHECK(status == KBD48_DONE); break;
    case KBD48_PUSH_REPEATED: CHECK(status == KBD48_REPEATED); break;
    case KBD48_PUSH_NO_ROOM: CHECK(status == KBD48_FULL && down); break;
    default: CHECK(!"an answer");
    }
}

/* The same edges wait in both. The stamps of kbd48.h count from cycle 4,096 on. */
static void waits_alike(const kbd48_keys *theirs, const kbd48_queue *ours) {
    CHECK(theirs->count == ours->count && !memcmp(theirs->down, ours->down, sizeof ours->down));
    CHECK(theirs->ready ? theirs->ready + STAMP_0 == ours->ready : !ours->ready);
    for (unsigned i = 0; i < ours->count; i++) {
        CHECK(theirs->edges[i].stamp + STAMP_0 == ours->edges[i].stamp && theirs->edges[i].place == ours->edges[i].place);
        CHECK(theirs->edges[i].down == ours->edges[i].down);
    }
}

/* A step of the loop, before which the edge that is due is handed over. */
static void keyed_step(board *b, kbd48_queue *queue) {
    kbd48_queue before = *queue;
    uint8_t byte = 0;
    bool due = kbd48_queue_wait(queue, b->now, 1000) == 0;
    uint64_t at = before.count && before.edges[0].stamp > before.ready ? before.edges[0].stamp : before.ready;
    CHECK(due == (before.count && at <= b->now) && kbd48_queue_wait(queue, b->now, 0) == 0);
    if (before.count && !due) CHECK(kbd48_queue_wait(queue, b->now, UINT32_MAX) == at - b->now);
    CHECK(before.count || kbd48_queue_wait(queue, b->now, 77) == 77);
    CHECK(kbd48_keyboard_take(&b->keyboard, queue, UINT64_MAX) == 0 && kbd48_keyboard_take(&b->keyboard, queue, b->now) == due);
    CHECK(due || !memcmp(&before, queue, sizeof before));
    edges_taken += due;
    CHECK(step(b, NOTHING, &byte));
}

/* Keys through the queue of kbd48.h and through that of the halves, with INT 09h reading: the library and the halves differ
   nowhere. */
static void queues(kbd48 *k, board *b, unsigned long count, bool debounce) {
    static uint8_t bytes[KBD48_SAVED];
    kbd48_keys theirs = KBD48_NO_KEYS;
    kbd48_queue ours = KBD48_NO_QUEUE;
    uint64_t passed;
    kbd48_spot spot;
    CHECK(kbd48_power_on(k, 0) == KBD48_DONE && kbd48_save(k, bytes, sizeof bytes) == KBD48_DONE);
    bytes[KBD48_SAVED - sizeof program.bytes + DEBOUNCE] = debounce;
    CHECK(kbd48_load(k, bytes, sizeof bytes) == KBD48_DONE);
    switch_on(b, 0);
    b->keyboard.chip.program[DEBOUNCE] = debounce;
    hosts(k, b, UNMASK, 0);
    for (call = 0; call < count; call++) {
        uint32_t what = random_below(64), places = random_below(8) ? 97 : 5;
        if (what == 0) {
            CHECK(kbd48_release_all(&theirs, b->now) == KBD48_DONE);
            kbd48_queue_release_all(&ours, b->now);
        } else {
            push(&theirs, &ours, b->now, (uint8_t)random_below(places), what % 2);
        }
        uint32_t cycles = random_below(what < 8 ? 20000 : 1000);
        for (uint64_t left = cycles; left; left -= passed < left ? passed : left) {
            CHECK(kbd48_run_keys(k, &theirs, left, false, &passed, &spot) <= KBD48_KEY_DUE);
        }
        for (uint64_t end = b->now + cycles; b->now < end;) keyed_step(b, &ours);
        is_alike(k, b), waits_alike(&theirs, &ours);
        for (kbd48_item item; kbd48_next(k, &item) != KBD48_NOTHING_SAID;) {}
        said = 0;
    }
}

/* Two keyboards with the same edges in their queues. One is stepped all the time. The other is left alone as long as it rests,
   and makes its steps then, in which nothing of it changes that is seen. Both are the same again and again. */
static void sleeps(void) {
    static kbd48_keyboard stepped = KBD48_NO_KEYBOARD, slept = KBD48_NO_KEYBOARD;
    kbd48_queue queue = KBD48_NO_QUEUE, same = KBD48_NO_QUEUE;
    uint64_t now = 0, then = 0;
    unsigned long naps = 0;
    kbd48_keyboard_open(&stepped, &program, 0), kbd48_keyboard_open(&slept, &program, 0);
    while (now < 800000) {
        uint64_t end = then + 1 + random_below(20000);
        uint32_t others = random_below(4) ? KBD48_RELEASED : random_below(4);
        uint8_t place = (uint8_t)random_below(96);
        CHECK(kbd48_queue_push(&queue, now, place, call % 2) == kbd48_queue_push(&same, now, place, call % 2));
        while (now < end) {
            kbd48_keyboard_take(&stepped, &queue, now);
            uint32_t cycles = kbd48_keyboard_step(&stepped, kbd48_keyboard_drive(&stepped) & others);
            CHECK(cycles > 0);
            now += cycles;
        }
        while (then < end) {
            kbd48_keyboard_take(&slept, &same, then);
            uint32_t rest = kbd48_keyboard_rests(&slept, others, kbd48_queue_wait(&same, then, (uint32_t)(end - then)));
            uint32_t drive = kbd48_keyboard_drive(&slept), lights = kbd48_keyboard_lights(&slept);
            for (uint64_t wakes = then + rest; then < wakes;) {
                then += kbd48_keyboard_step(&slept, kbd48_keyboard_drive(&slept) & others);
                CHECK(kbd48_keyboard_drive(&slept) == drive && kbd48_keyboard_lights(&slept) == lights);
            }
            if (then < end && kbd48_queue_wait(&same, then, 1)) {
                then += kbd48_keyboard_step(&slept, kbd48_keyboard_drive(&slept) & others);
            }
            naps += rest > 100;
        }
        CHECK(now == then && !memcmp(&stepped, &slept, sizeof slept) && !memcmp(&queue, &same, sizeof same));
        call++;
    }
    CHECK(naps > 0);
    call = 0;
}

int main(int argc, char **argv) {
    static uint8_t hex[16384], bytes[KBD48_SAVED];
    kbd48 k = KBD48_EMPTY, other = KBD48_EMPTY;
    kbd48_fault fault;
    unsigned long count = argc > 2 ? strtoul(argv[2], NULL, 10) : 100000;
    seed = argc > 3 ? strtoul(argv[3], NULL, 10) : 1;
    state = seed * 0x9e3779b97f4a7c15u + 1;
    FILE *file = fopen(argc > 1 ? argv[1] : "examples/us84.hex", "rb");
    size_t length = file ? fread(hex, 1, sizeof hex, file) : 0;
    CHECK(kbd48_open_hex(hex, length, &k, &fault) == KBD48_DONE && kbd48_save(&k, bytes, sizeof bytes) == KBD48_DONE);
    memcpy(program.bytes, bytes + KBD48_SAVED - sizeof program.bytes, sizeof program.bytes);
    sticks();
    reads_pins();
    if (argc < 2 || strstr(argv[1], "us84.hex")) sleeps();
    kbd48_controller_pins(&joined.twin, TWIN_PINS);
    switch_on(&joined, 0);
    is_alike(&k, &joined);
    says_alike(&k);
    refusals();
    if (argc < 2 || strstr(argv[1], "us84.hex")) whole_bytes();
    CHECK(kbd48_copy(&k, &other) == KBD48_DONE);
    kept = joined;
    for (call = 0; call < count; call++) {
        calls(&k, &other, &joined);
        if (call % 64 == 0) rests(&joined, random_below(4) ? kbd48_controller_drive(&joined.controller) : random_below(4), random_below(20000));
        if (call % 4 == 0) falls_silent(&joined, random_below(2) ? kbd48_keyboard_drive(&joined.keyboard) : random_below(4));
        is_alike(&k, &joined);
        looks_alike(&k, &joined);
        says_alike(&k);
    }
    queues(&k, &joined, count / 20, false);
    queues(&k, &joined, count / 20, true);
    CHECK(kbd48_close(&k) == KBD48_DONE && kbd48_close(&other) == KBD48_DONE);
    CHECK(count < 10000 || (loads > 0 && items_said > 0 && rests_tried > 0 && edges_taken > 0 && pins_read > 0));
    printf("halves: %lu random calls, %lu steps, %lu items, %lu copies, loads and power-ons, %lu rests, %lu edges by queues: "
           "halves and library differ nowhere\n", count, steps_made, items_said, loads, rests_tried, edges_taken);
}
