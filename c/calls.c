/* Every call of the library, with wrong and empty arguments, and with each allocation refused in turn. */
#include "kbd48.h"
#include <stdio.h>
#include <stdlib.h>
#include <string.h>

#define CHECK(x) \
    do { \
        if (!(x)) { \
            fprintf(stderr, "%s:%d: %s\n", __FILE__, __LINE__, #x); \
            exit(1); \
        } \
    } while (0)

static uint8_t layout[65537], hex[32768];
static size_t layout_length, hex_length;

static size_t read_file(const char *name, uint8_t *to, size_t most) {
    FILE *file = fopen(name, "rb");
    CHECK(file);
    size_t length = fread(to, 1, most, file);
    fclose(file);
    return length;
}

static void empty_handle(void) {
    kbd48 k = KBD48_EMPTY;
    uint64_t number = 7;
    uint16_t word = 7;
    uint8_t byte = 7;
    bool up = true, data = false;
    kbd48_spot spot = {7, 7};
    CHECK(kbd48_close(&k) == KBD48_NOT_OPEN);
    CHECK(kbd48_key(&k, 0, true) == KBD48_NOT_OPEN);
    CHECK(kbd48_run(&k, 1, false, &number, &spot) == KBD48_NOT_OPEN && number == 0 && spot.counter == 7);
    CHECK(kbd48_write(&k, 0x60, 0) == KBD48_NOT_OPEN);
    CHECK(kbd48_read60(&k, &byte) == KBD48_NOT_OPEN && byte == 7);
    CHECK(kbd48_status(&k, &byte) == KBD48_NOT_OPEN && byte == 7);
    CHECK(kbd48_bios(&k, true) == KBD48_NOT_OPEN && kbd48_flip(&k, 1) == KBD48_NOT_OPEN);
    CHECK(kbd48_power_on(&k, 0) == KBD48_NOT_OPEN && !k.at);
    CHECK(kbd48_take(&k, &word) == KBD48_NOT_OPEN && word == 7);
    CHECK(kbd48_interrupt(&k, &up) == KBD48_NOT_OPEN && up);
    CHECK(kbd48_lights(&k, &byte) == KBD48_NOT_OPEN && byte == 7);
    CHECK(kbd48_wires(&k, &up, &data) == KBD48_NOT_OPEN && up && !data);
    number = 7;
    CHECK(kbd48_cycle(&k, &number) == KBD48_NOT_OPEN && number == 7);
    kbd48 other = KBD48_EMPTY;
    kbd48_registers registers = {7, 7, 7, 7};
    kbd48_processor inside = {.counter = 7};
    kbd48_item item = {7, 7, 7};
    uint8_t edges = 7;
    CHECK(kbd48_pulls(&k, &edges, &byte) == KBD48_NOT_OPEN && edges == 7 && byte == 7);
    number = 7;
    CHECK(kbd48_rises(&k, &number) == KBD48_NOT_OPEN && number == 7);
    CHECK(kbd48_next(&k, &item) == KBD48_NOT_OPEN && item.kind == 7);
    CHECK(kbd48_lost(&k, &number) == KBD48_NOT_OPEN && number == 7);
    CHECK(kbd48_run_to(&k, 15, 0, 9, 9, &byte, &number, &spot) == KBD48_NOT_OPEN && byte == 0 && number == 0);
    byte = 7;
    CHECK(kbd48_copy(&k, &other) == KBD48_NOT_OPEN && !other.at);
    CHECK(kbd48_save(&k, &byte, 1) == KBD48_NOT_OPEN && byte == 7);
    CHECK(kbd48_look(&k, &registers) == KBD48_NOT_OPEN && registers.status == 7 && registers.output_port == 7);
    CHECK(kbd48_inside(&k, &inside) == KBD48_NOT_OPEN && inside.counter == 7);
    CHECK(kbd48_waiting(&k, &edges, &byte) == KBD48_NOT_OPEN && edges == 7 && byte == 7);
    CHECK(kbd48_column(&k, 0, &byte) == KBD48_NOT_OPEN && kbd48_cell(&k, 0, &byte) == KBD48_NOT_OPEN && byte == 7);
}

/* Help for two BIOSes: what is written in place of each byte, and when the keyboard is to run on. */
static void helps(void) {
    static const struct { uint8_t port, byte, instead; } written[] = {
        {0x60, 0xf0, 0xf0}, {0x60, 0x02, 0xef}, {0x60, 0x02, 0x02}, /* the byte after F0 alone */
        {0x60, 0xf0, 0xf0}, {0x60, 0xf0, 0xef}, {0x60, 0x02, 0x02}, /* EF is what was given, not F0 */
        {0x64, 0x60, 0x60}, {0x60, 0xf0, 0xf0}, {0x60, 0x45, 0x45}, /* the controller's parameter is no byte for the keyboard */
        {0x64, 0xf0, 0xf0}, {0x60, 0x02, 0x02},                     /* nor is a command */
        {0x60, 0xf0, 0xf0}, {0x64, 0xd1, 0xd1}, {0x60, 0xcf, 0xcf}, {0x60, 0x02, 0xef}, /* a parameter between the two */
        {0x60, 0xf0, 0xf0}, {0x64, 0xae, 0xae}, {0x60, 0x02, 0xef}, /* AE awaits no parameter */
        {0x60, 0xf0, 0xf0}, {0x61, 0xf0, 0xf0}, {0x60, 0x02, 0xef}, /* another port is no matter */
    };
    kbd48_help seabios = {.seabios = true}, bochs = {.bochs = true}, none = {0};
    for (size_t i = 0; i < sizeof written / sizeof *written; i++) {
        CHECK(kbd48_help_write(&seabios, written[i].port, written[i].byte) == written[i].instead);
        CHECK(kbd48_help_write(&bochs, written[i].port, written[i].byte) == written[i].byte);
        CHECK(kbd48_help_write(&none, written[i].port, written[i].byte) == written[i].byte);
        CHECK(!kbd48_help_read(&seabios, 0xfa) && !kbd48_help_read(&bochs, 0xfa) && !kbd48_help_read(&none, 0xfa));
    }
    CHECK(kbd48_help_write(&bochs, 0x60, 0xff) == 0xff && kbd48_help_write(&seabios, 0x60, 0xff) == 0xff);
    CHECK(kbd48_help_write(&none, 0x60, 0xff) == 0xff);
    CHECK(!kbd48_help_read(&bochs, 0xfe) && kbd48_help_read(&bochs, 0xfa) && !kbd48_help_read(&bochs, 0xfa)); /* once */
    CHECK(!kbd48_help_read(&seabios, 0xfa) && !kbd48_help_read(&none, 0xfa));
    CHECK(seabios.seabios && !seabios.bochs && bochs.bochs && !bochs.seabios && !none.seabios && !none.bochs);
}

static void bad_texts(void) {
    kbd48 k = KBD48_EMPTY;
    kbd48_fault fault = {9, 9};
    const uint8_t no_layout[] = "format = ", no_utf8[] = "format = 1 # \xff", no_hex[] = ":00000001FF\n:0";
    CHECK(kbd48_open_layout(no_layout, sizeof no_layout - 1, &k, &fault) == KBD48_BAD_TEXT && !k.at);
    CHECK(fault.position == 0 && fault.number == 1);
    CHECK(kbd48_open_layout(no_utf8, sizeof no_utf8 - 1, &k, &fault) == KBD48_BAD_TEXT && !k.at);
    CHECK(fault.position == 0 && fault.number == 1);
    CHECK(kbd48_open_hex(no_hex, sizeof no_hex - 1, &k, &fault) == KBD48_BAD_TEXT && fault.position == 2);
    fault.position = fault.number = 9;
    CHECK(kbd48_open_hex(hex, 16385, &k, &fault) == KBD48_TOO_LONG && !k.at);
    CHECK(kbd48_open_layout(layout, 65537, &k, &fault) == KBD48_TOO_LONG && !k.at);
    CHECK(fault.position == 9 && fault.number == 9);
    CHECK(!strcmp(kbd48_text(KBD48_ROSE), "the interrupt line rose") && !strcmp(kbd48_text(99), "no such status"));
}

/* The looks change nothing, and show what the stepping calls would read. */
static void looks(kbd48 *k) {
    kbd48_registers registers;
    kbd48_processor inside;
    uint64_t before, after;
    uint8_t byte, edges, words;
    CHECK(kbd48_cycle(k, &before) == KBD48_DONE);
    CHECK(kbd48_look(k, &registers) == KBD48_DONE && registers.status == 0x15 && registers.output == 0xaa);
    CHECK(registers.command_byte == 0x45 && registers.output_port == 0xcf);
    CHECK(kbd48_inside(k, &inside) == KBD48_DONE && inside.counter < 2048 && inside.stack < 8);
    CHECK(inside.prescaler < 32 && inside.counts == 1 && (inside.p2 & 0x70) == 0x70); /* no light */
    CHECK(kbd48_cell(k, 127, &byte) == KBD48_DONE && kbd48_cell(k, 128, &byte) == KBD48_NO_SUCH_CELL);
    CHECK(kbd48_column(k, 11, &byte) == KBD48_DONE && byte == 0xff);
    CHECK(kbd48_column(k, 12, &byte) == KBD48_NO_SUCH_PLACE);
    CHECK(kbd48_waiting(k, &edges, &words) == KBD48_DONE && edges == 0 && words == 0);
    CHECK(kbd48_cycle(k, &after) == KBD48_DONE && before == after);
}

/* AA waits and the controller has a command: the read makes the line fall and rise in one step. */
static void a_rise_within_a_step(kbd48 *k) {
    kbd48_item item;
    uint64_t rises, passed;
    kbd48_spot spot;
    uint8_t byte;
    bool up;
    CHECK(kbd48_write(k, 0x64, 0xaa) == KBD48_DONE);
    CHECK(kbd48_rises(k, &rises) == KBD48_DONE && rises == 0);
    CHECK(kbd48_interrupt(k, &up) == KBD48_DONE && up);
    CHECK(kbd48_read60(k, &byte) == KBD48_DONE && byte == 0xaa);
    CHECK(kbd48_interrupt(k, &up) == KBD48_DONE && up);
    CHECK(kbd48_rises(k, &rises) == KBD48_DONE && rises == 1);
    CHECK(kbd48_read60(k, &byte) == KBD48_DONE && byte == 0x55);
    CHECK(kbd48_write(k, 0x64, 0xd1) == KBD48_DONE && kbd48_run(k, 8, false, &passed, &spot) == KBD48_DONE);
    CHECK(kbd48_write(k, 0x60, 0xdf) == KBD48_DONE && kbd48_run(k, 8, false, &passed, &spot) == KBD48_DONE);
    CHECK(kbd48_write(k, 0x64, 0xfe) == KBD48_DONE && kbd48_run(k, 8, false, &passed, &spot) == KBD48_DONE);
    static const struct { uint8_t kind, value; } said[] = {
        {KBD48_ITEM_SENT, 0xaa}, {KBD48_ITEM_READ, 0xaa}, {KBD48_ITEM_READ, 0x55},
        {KBD48_ITEM_OUTPUT, 0xdf}, {KBD48_ITEM_PULSE, 0x0e},
    };
    for (size_t i = 0; i < sizeof said / sizeof *said; i++) {
        CHECK(kbd48_next(k, &item) == KBD48_DONE);
        CHECK(item.kind == said[i].kind && item.value == said[i].value);
    }
    CHECK(kbd48_next(k, &item) == KBD48_NOTHING_SAID);
}

/* A bit of the keyboard's next frame is turned round: the controller asks for the byte again, and then it comes right. Both
   sides pull the wires meanwhile, and what neither pulls is high. */
static void a_noisy_byte(const uint8_t *hex, size_t length) {
    kbd48 k = KBD48_EMPTY;
    kbd48_fault fault;
    kbd48_spot spot;
    uint64_t passed, cycle, until;
    uint8_t byte, keyboard, controller, pulled_by_keyboard = 0, pulled_by_controller = 0;
    bool clock, data, up = false;
    CHECK(kbd48_open_ready_hex(hex, length, &k, &fault) == KBD48_DONE);
    CHECK(kbd48_pulls(&k, &keyboard, &controller) == KBD48_DONE && controller == 1); /* it holds the clock: AA waits */
    CHECK(kbd48_read60(&k, &byte) == KBD48_DONE && byte == 0xaa);
    CHECK(kbd48_flip(&k, 0) == KBD48_NO_SUCH_BIT && kbd48_flip(&k, 10) == KBD48_NO_SUCH_BIT);
    CHECK(kbd48_flip(&k, 9) == KBD48_DONE);
    CHECK(kbd48_key(&k, 34, true) == KBD48_DONE && kbd48_cycle(&k, &cycle) == KBD48_DONE);
    until = cycle + 40000;
    while (!up && cycle < until) {
        CHECK(kbd48_run(&k, 1, false, &passed, &spot) == KBD48_DONE);
        CHECK(kbd48_pulls(&k, &keyboard, &controller) == KBD48_DONE && kbd48_wires(&k, &clock, &data) == KBD48_DONE);
        CHECK(clock == !((keyboard | controller) & 1) && data == !((keyboard | controller) & 2));
        pulled_by_keyboard |= keyboard, pulled_by_controller |= controller;
        CHECK(kbd48_interrupt(&k, &up) == KBD48_DONE && kbd48_cycle(&k, &cycle) == KBD48_DONE);
    }
    CHECK(up && pulled_by_keyboard == 3 && pulled_by_controller == 3);
    CHECK(until - cycle < 40000 - 6000); /* the byte, FE and the byte again take three frames */
    CHECK(kbd48_read60(&k, &byte) == KBD48_DONE && byte == 0x23);
    static const struct { uint8_t kind, value; } happened[] = {
        {KBD48_ITEM_SENT, 0xaa}, {KBD48_ITEM_READ, 0xaa}, {KBD48_ITEM_SENT, 0x33}, {KBD48_ITEM_GIVEN, 0xfe},
        {KBD48_ITEM_SENT, 0x33}, {KBD48_ITEM_READ, 0x23}, /* make code 33 comes wrong, and then right; 23 is translated */
    };
    kbd48_item item;
    cycle = 0;
    for (size_t i = 0; i < sizeof happened / sizeof *happened; i++, cycle = item.cycle) {
        CHECK(kbd48_next(&k, &item) == KBD48_DONE && item.cycle > cycle);
        CHECK(item.kind == happened[i].kind && item.value == happened[i].value);
    }
    CHECK(kbd48_next(&k, &item) == KBD48_NOTHING_SAID);
    CHECK(kbd48_close(&k) == KBD48_DONE);
}

/* Six items more than are kept: so many are lost. */
static void lost_items(kbd48 *k) {
    kbd48_item item;
    uint64_t lost;
    uint8_t byte;
    CHECK(kbd48_lost(k, &lost) == KBD48_DONE && lost == 0);
    for (int i = 0; i < 70; i++) CHECK(kbd48_status(k, &byte) == KBD48_DONE);
    CHECK(kbd48_lost(k, &lost) == KBD48_DONE && lost == 6);
    for (int i = 0; i < 64; i++) CHECK(kbd48_next(k, &item) == KBD48_DONE && item.kind == KBD48_ITEM_STATUS);
    CHECK(kbd48_next(k, &item) == KBD48_LOST && kbd48_next(k, &item) == KBD48_NOTHING_SAID);
    CHECK(kbd48_lost(k, &lost) == KBD48_DONE && lost == 0);
}

/* A keyboard that is opened ready is the one that was opened and run until the line rose. */
static void a_ready_one(const uint8_t *hex, size_t length) {
    kbd48 ready = KBD48_EMPTY, other = KBD48_EMPTY;
    kbd48_fault fault;
    kbd48_spot spot;
    uint64_t passed, cycle, at;
    uint8_t byte;
    bool up;
    CHECK(kbd48_open_ready_hex(hex, length, &ready, &fault) == KBD48_DONE);
    CHECK(kbd48_open_hex(hex, length, &other, &fault) == KBD48_DONE);
    CHECK(kbd48_run(&other, 400000, true, &passed, &spot) == KBD48_ROSE);
    CHECK(kbd48_cycle(&ready, &cycle) == KBD48_DONE && kbd48_cycle(&other, &at) == KBD48_DONE && cycle == at);
    CHECK(kbd48_interrupt(&ready, &up) == KBD48_DONE && up);
    CHECK(kbd48_read60(&ready, &byte) == KBD48_DONE && byte == 0xaa);
    CHECK(kbd48_open_ready_layout(hex, length, &ready, &fault) == KBD48_BAD_TEXT && ready.at);
    CHECK(kbd48_close(&ready) == KBD48_DONE && kbd48_close(&other) == KBD48_DONE);
}

/* Memory holds the byte that it is asked to hold at power-on. A layout's firmware tests itself whatever it is. */
static void a_byte_at_power_on(const uint8_t *hex, size_t length) {
    static const uint8_t nothing[] = ":00000001FF\n"; /* a program of NOPs alone */
    kbd48 k = KBD48_EMPTY;
    kbd48_fault fault;
    kbd48_spot spot;
    kbd48_processor inside;
    uint64_t passed, cycle, at;
    uint8_t byte;
    CHECK(kbd48_open_hex(nothing, sizeof nothing - 1, &k, &fault) == KBD48_DONE);
    for (unsigned fill = 0; fill < 256; fill += 85) {
        CHECK(kbd48_power_on(&k, (uint8_t)fill) == KBD48_DONE);
        CHECK(kbd48_inside(&k, &inside) == KBD48_DONE && inside.a == fill && inside.t == fill);
        for (uint8_t cell = 0; cell < 128; cell++) CHECK(kbd48_cell(&k, cell, &byte) == KBD48_DONE && byte == fill);
    }
    CHECK(kbd48_open_hex(hex, length, &k, &fault) == KBD48_DONE && kbd48_cycle(&k, &at) == KBD48_DONE);
    CHECK(kbd48_key(&k, 34, true) == KBD48_DONE && kbd48_run(&k, 4, false, &passed, &spot) == KBD48_DONE);
    CHECK(kbd48_power_on(&k, 0) == KBD48_DONE && kbd48_cycle(&k, &cycle) == KBD48_DONE && cycle == at);
    CHECK(kbd48_column(&k, 4, &byte) == KBD48_DONE && byte == 0xff); /* all keys are up again */
    CHECK(kbd48_power_on(&k, 0xff) == KBD48_DONE);
    CHECK(kbd48_run(&k, 400000, true, &passed, &spot) == KBD48_ROSE && kbd48_read60(&k, &byte) == KBD48_DONE && byte == 0xaa);
    CHECK(kbd48_close(&k) == KBD48_DONE);
}

/* A run ends at the first step that comes to what it is asked to stop for, and at the same one as a run of single cycles. */
static void a_run_to(const uint8_t *hex, size_t length) {
    kbd48 k = KBD48_EMPTY, other = KBD48_EMPTY;
    kbd48_fault fault;
    kbd48_spot spot;
    kbd48_processor inside;
    uint64_t passed, one, cycle, at;
    uint8_t met;
    bool clock, data, clock_now, data_now;
    CHECK(kbd48_open_hex(hex, length, &k, &fault) == KBD48_DONE);
    CHECK(kbd48_copy(&k, &other) == KBD48_DONE);
    CHECK(kbd48_run_to(&k, 0, 0, 400000, 9, &met, &passed, &spot) == KBD48_DONE && met == 0 && passed >= 9 && passed <= 18);
    CHECK(kbd48_run(&other, passed, false, &one, &spot) == KBD48_DONE && one == passed);
    for (int changes = 0; changes < 30; changes++) {
        CHECK(kbd48_run_to(&k, KBD48_STOP_WIRES, 0, 400000, UINT64_MAX, &met, &passed, &spot) == KBD48_DONE);
        if (met != KBD48_STOP_WIRES) break;
        CHECK(kbd48_wires(&other, &clock, &data) == KBD48_DONE);
        do {
            CHECK(kbd48_run(&other, 1, false, &one, &spot) == KBD48_DONE);
            CHECK(kbd48_wires(&other, &clock_now, &data_now) == KBD48_DONE);
        } while (clock == clock_now && data == data_now);
        CHECK(kbd48_cycle(&k, &cycle) == KBD48_DONE && kbd48_cycle(&other, &at) == KBD48_DONE && cycle == at);
    }
    CHECK(kbd48_run_to(&k, KBD48_STOP_RISE | KBD48_STOP_ITEM, 0, 400000, UINT64_MAX, &met, &passed, &spot) == KBD48_DONE);
    CHECK((met & ~(KBD48_STOP_RISE | KBD48_STOP_ITEM)) == 0);
    CHECK(kbd48_run_to(&k, KBD48_STOP_COUNTER, KBD48_TICK, 2049, UINT64_MAX, &met, &passed, &spot) == KBD48_DONE);
    CHECK(met == KBD48_STOP_COUNTER && kbd48_inside(&k, &inside) == KBD48_DONE && inside.counter == KBD48_TICK);
    CHECK(kbd48_close(&k) == KBD48_DONE && kbd48_close(&other) == KBD48_DONE);
}

/* A copy answers as the original does, and goes its own way. */
static int32_t a_copy(kbd48 *k) {
    kbd48 copy = KBD48_EMPTY;
    kbd48_spot spot;
    uint64_t passed, as_many;
    uint8_t byte = 0, same = 1, rows;
    int32_t status = kbd48_copy(k, &copy);
    if (status != KBD48_DONE) {
        CHECK(status == KBD48_NO_MEMORY && !copy.at);
        return status;
    }
    a_rise_within_a_step(&copy);
    lost_items(&copy);
    CHECK(kbd48_key(&copy, 0, true) == KBD48_DONE && kbd48_run(&copy, 4, false, &passed, &spot) == KBD48_DONE);
    CHECK(kbd48_column(&copy, 0, &rows) == KBD48_DONE && rows == 0xfe);
    CHECK(kbd48_column(k, 0, &rows) == KBD48_DONE && rows == 0xff);
    CHECK(kbd48_copy(k, &copy) == KBD48_DONE); /* in place of the first copy: no memory is taken */
    kbd48 twin = KBD48_EMPTY;
    status = kbd48_copy(&copy, &twin);
    CHECK(status == KBD48_DONE || status == KBD48_NO_MEMORY);
    if (status == KBD48_DONE) {
        CHECK(kbd48_read60(&copy, &byte) == KBD48_DONE && kbd48_read60(&twin, &same) == KBD48_DONE && byte == same);
        CHECK(kbd48_write(&copy, 0x60, 0xee) == KBD48_DONE && kbd48_write(&twin, 0x60, 0xee) == KBD48_DONE);
        CHECK(kbd48_run(&copy, 40000, true, &passed, &spot) == KBD48_ROSE);
        CHECK(kbd48_run(&twin, 40000, true, &as_many, &spot) == KBD48_ROSE && passed == as_many);
        CHECK(kbd48_read60(&copy, &byte) == KBD48_DONE && kbd48_read60(&twin, &same) == KBD48_DONE);
        CHECK(byte == 0xee && same == 0xee);
        CHECK(kbd48_close(&twin) == KBD48_DONE);
    }
    CHECK(kbd48_close(&copy) == KBD48_DONE);
    return status;
}

/* What is saved is loaded as it was; or there is no memory for it, and the handle is as it was. */
static int32_t a_load(kbd48 *k) {
    static uint8_t bytes[KBD48_SAVED], again[KBD48_SAVED];
    kbd48 loaded = KBD48_EMPTY;
    CHECK(kbd48_save(k, bytes, sizeof bytes) == KBD48_DONE);
    int32_t status = kbd48_load(&loaded, bytes, sizeof bytes);
    if (status != KBD48_DONE) {
        CHECK(status == KBD48_NO_MEMORY && !loaded.at);
        return status;
    }
    CHECK(kbd48_save(&loaded, again, sizeof again) == KBD48_DONE && !memcmp(bytes, again, sizeof bytes));
    CHECK(kbd48_close(&loaded) == KBD48_DONE);
    return KBD48_DONE;
}

/* A keyboard is switched off and on, for which no memory is needed. */
static void a_power_on(kbd48 *k) {
    static uint8_t bytes[KBD48_SAVED], again[KBD48_SAVED];
    uint64_t cycle;
    CHECK(kbd48_save(k, bytes, sizeof bytes) == KBD48_DONE);
    CHECK(kbd48_power_on(k, 0x55) == KBD48_DONE);
    CHECK(kbd48_save(k, again, sizeof again) == KBD48_DONE);
    CHECK(kbd48_cycle(k, &cycle) == KBD48_DONE && cycle > 4096 && cycle < 4100);
    CHECK(!memcmp(bytes + 1029, again + 1029, 2048)); /* the program */
}

static int32_t a_session(void) {
    kbd48 k = KBD48_EMPTY;
    kbd48_fault fault;
    kbd48_spot spot;
    uint64_t passed, cycle;
    uint16_t word;
    uint8_t byte;
    bool up, data;
    int32_t status = kbd48_open_layout(layout, layout_length, &k, &fault);
    if (status != KBD48_DONE) {
        CHECK(status == KBD48_NO_MEMORY && !k.at);
        return status;
    }
    status = kbd48_open_hex(hex, hex_length, &k, &fault); /* closes the first, or leaves it */
    CHECK(status == KBD48_DONE || status == KBD48_NO_MEMORY);
    CHECK(k.at);
    CHECK(kbd48_cycle(&k, &cycle) == KBD48_DONE && cycle > 4096 && cycle < 4100);
    CHECK(kbd48_run(&k, 400000, true, &passed, &spot) == KBD48_ROSE && passed < 140000);
    CHECK(kbd48_interrupt(&k, &up) == KBD48_DONE && up);
    looks(&k);
    int32_t copied = a_copy(&k), loaded = a_load(&k);
    CHECK(kbd48_status(&k, &byte) == KBD48_DONE && (byte & 1));
    CHECK(kbd48_read60(&k, &byte) == KBD48_DONE && byte == 0xaa);
    CHECK(kbd48_interrupt(&k, &up) == KBD48_DONE && !up);
    CHECK(kbd48_wires(&k, &up, &data) == KBD48_DONE && !up && data); /* it held the clock while the byte waited */
    CHECK(kbd48_run(&k, 128, false, &passed, &spot) == KBD48_DONE);
    CHECK(kbd48_wires(&k, &up, &data) == KBD48_DONE && up && data);
    CHECK(kbd48_write(&k, 0x64, 0xad) == KBD48_DONE); /* the controller disables the keyboard: it holds the clock */
    CHECK(kbd48_run(&k, 64, false, &passed, &spot) == KBD48_DONE);
    CHECK(kbd48_wires(&k, &up, &data) == KBD48_DONE && !up && data);
    CHECK(kbd48_write(&k, 0x64, 0xae) == KBD48_DONE);
    CHECK(kbd48_run(&k, 64, false, &passed, &spot) == KBD48_DONE);
    CHECK(kbd48_key(&k, 96, true) == KBD48_NO_SUCH_PLACE && kbd48_write(&k, 0x61, 0) == KBD48_NO_SUCH_PORT);
    for (int i = 0; i < 4; i++) CHECK(kbd48_key(&k, (uint8_t)i, true) == KBD48_DONE);
    CHECK(kbd48_key(&k, 4, true) == KBD48_FULL);
    CHECK(kbd48_write(&k, 0x60, 0xed) == KBD48_DONE);
    CHECK(kbd48_run(&k, 40000, true, &passed, &spot) == KBD48_ROSE);
    CHECK(kbd48_read60(&k, &byte) == KBD48_DONE && byte == 0xfa);
    CHECK(kbd48_write(&k, 0x60, 7) == KBD48_DONE);
    CHECK(kbd48_run(&k, 400000, false, &passed, &spot) == KBD48_DONE && passed < 400002);
    CHECK(kbd48_lights(&k, &byte) == KBD48_DONE && byte == 7);
    CHECK(kbd48_bios(&k, true) == KBD48_DONE);
    CHECK(kbd48_run(&k, 400000, false, &passed, &spot) == KBD48_DONE);
    CHECK(kbd48_take(&k, &word) == KBD48_DONE || kbd48_take(&k, &word) == KBD48_NO_WORD);
    a_power_on(&k);
    CHECK(kbd48_close(&k) == KBD48_DONE && !k.at && kbd48_close(&k) == KBD48_NOT_OPEN);
    if (status != KBD48_DONE) return status;
    if (copied != KBD48_DONE) return copied;
    return loaded;
}

static void a_stuck_one(void) {
    static const uint8_t stuck[] = ":0100000001FE\n:00000001FF\n";
    kbd48 k = KBD48_EMPTY;
    kbd48_fault fault;
    kbd48_spot spot = {9, 9};
    uint64_t passed;
    uint8_t byte;
    kbd48_processor inside;
    CHECK(kbd48_open_hex(stuck, sizeof stuck - 1, &k, &fault) == KBD48_DONE);
    CHECK(kbd48_run(&k, 10, false, &passed, &spot) == KBD48_STUCK && passed == 0);
    CHECK(spot.counter == 0 && spot.byte == 1);
    CHECK(kbd48_inside(&k, &inside) == KBD48_DONE && inside.counter == 0 && inside.byte == 1);
    CHECK(kbd48_read60(&k, &byte) == KBD48_EARLY && kbd48_key(&k, 0, true) == KBD48_EARLY);
    CHECK(kbd48_close(&k) == KBD48_DONE);
}

#ifdef SHARED
int main(void) {
    layout_length = read_file("examples/us84.toml", layout, sizeof layout);
    hex_length = read_file("examples/us84.hex", hex, sizeof hex);
    empty_handle();
    bad_texts();
    helps();
    CHECK(a_session() == KBD48_DONE);
    a_stuck_one();
    a_ready_one(hex, hex_length);
    a_noisy_byte(hex, hex_length);
    a_run_to(hex, hex_length);
    a_byte_at_power_on(hex, hex_length);
}
#else
static long refuse = -1, calls, live;
void *__real_malloc(size_t);
void *__real_calloc(size_t, size_t);
void *__real_realloc(void *, size_t);
void __real_free(void *);

void *__wrap_malloc(size_t size) {
    if (++calls == refuse) return NULL;
    live++;
    return __real_malloc(size);
}

void *__wrap_calloc(size_t count, size_t size) {
    if (++calls == refuse) return NULL;
    live++;
    return __real_calloc(count, size);
}

void *__wrap_realloc(void *old, size_t size) {
    if (++calls == refuse) return NULL;
    if (!old) live++;
    return __real_realloc(old, size);
}

void __wrap_free(void *at) {
    if (at) live--;
    __real_free(at);
}

int main(void) {
    layout_length = read_file("examples/us84.toml", layout, sizeof layout);
    hex_length = read_file("examples/us84.hex", hex, sizeof hex);
    empty_handle();
    bad_texts();
    helps();
    calls = 0;
    live = 0;
    CHECK(a_session() == KBD48_DONE && live == 0);
    long all = calls, refused = 0;
    for (long at = 1; at <= all; at++) {
        calls = 0;
        refuse = at;
        if (a_session() == KBD48_NO_MEMORY) refused++;
        CHECK(live == 0);
    }
    refuse = -1;
    CHECK(refused == all);
    a_stuck_one();
    a_ready_one(hex, hex_length);
    a_noisy_byte(hex, hex_length);
    a_run_to(hex, hex_length);
    a_byte_at_power_on(hex, hex_length);
    CHECK(live == 0);
    printf("calls: each of %ld allocations was refused in turn\n", all);
}
#endif
