/* Worked examples, call by call: what each call returns, what it writes, and what it leaves as it was. The expected values
   were worked out by hand from the rules in docs/. */
#include "kbd48.h"
#include <pthread.h>
#include <stdio.h>
#include <stdlib.h>
#include <string.h>

#define CHECK(x) \
    do { \
        if (!(x)) { \
            fprintf(stderr, "%s:%d: %s\n", __FILE__, __LINE__, #x); \
            exit(1); \
        } \
    } while (0)

enum { SECOND = 400000 };

static uint8_t kernel[16384]; /* the kernel with the tables of the sample layout */
static size_t kernel_length;
static const uint8_t one_key[] = "format = 1\n[[key]]\nkey = \"a\"\ncolumn = 11\nrow = 7\n";

static void an_empty_handle_says_so_and_does_nothing(void) {
    kbd48 k = KBD48_EMPTY;
    uint64_t number = 7;
    uint16_t word = 7;
    uint8_t byte = 7;
    bool up = true, clock = true, data = false;
    kbd48_spot spot = {7, 7};
    CHECK(kbd48_key(&k, 0, true) == KBD48_NOT_OPEN);
    CHECK(kbd48_run(&k, 1, false, &number, &spot) == KBD48_NOT_OPEN);
    CHECK(number == 0 && spot.counter == 7 && spot.byte == 7);
    CHECK(kbd48_write(&k, 0x60, 0) == KBD48_NOT_OPEN);
    CHECK(kbd48_read60(&k, &byte) == KBD48_NOT_OPEN && byte == 7);
    CHECK(kbd48_status(&k, &byte) == KBD48_NOT_OPEN && byte == 7);
    CHECK(kbd48_bios(&k, true) == KBD48_NOT_OPEN);
    CHECK(kbd48_take(&k, &word) == KBD48_NOT_OPEN && word == 7);
    CHECK(kbd48_interrupt(&k, &up) == KBD48_NOT_OPEN && up);
    CHECK(kbd48_lights(&k, &byte) == KBD48_NOT_OPEN && byte == 7);
    CHECK(kbd48_wires(&k, &clock, &data) == KBD48_NOT_OPEN && clock && !data);
    CHECK(kbd48_cycle(&k, &number) == KBD48_NOT_OPEN && number == 0);
    CHECK(kbd48_close(&k) == KBD48_NOT_OPEN && !k.at);
}

static void a_host_hears_the_self_test_and_sets_the_lights(void) {
    kbd48 k = KBD48_EMPTY;
    kbd48_fault fault;
    kbd48_spot spot;
    uint64_t passed, cycle;
    uint8_t byte;
    bool up, clock, data;
    CHECK(kbd48_open_hex(kernel, kernel_length, &k, &fault) == KBD48_DONE);
    CHECK(kbd48_cycle(&k, &cycle) == KBD48_DONE && cycle > 4096 && cycle < 4100);
    CHECK(kbd48_run(&k, SECOND, true, &passed, &spot) == KBD48_ROSE && passed > 130000 && passed < 135000);
    CHECK(kbd48_interrupt(&k, &up) == KBD48_DONE && up);
    CHECK(kbd48_status(&k, &byte) == KBD48_DONE && byte == 0x15);
    CHECK(kbd48_read60(&k, &byte) == KBD48_DONE && byte == 0xaa);
    CHECK(kbd48_write(&k, 0x61, 0) == KBD48_NO_SUCH_PORT);
    CHECK(kbd48_wires(&k, &clock, &data) == KBD48_DONE && !clock && data); /* it held the clock while the byte waited */
    CHECK(kbd48_run(&k, 128, false, &passed, &spot) == KBD48_DONE);
    CHECK(kbd48_wires(&k, &clock, &data) == KBD48_DONE && clock && data);
    CHECK(kbd48_write(&k, 0x64, 0xad) == KBD48_DONE && kbd48_run(&k, 64, false, &passed, &spot) == KBD48_DONE);
    CHECK(kbd48_wires(&k, &clock, &data) == KBD48_DONE && !clock && data);
    CHECK(kbd48_write(&k, 0x64, 0xae) == KBD48_DONE && kbd48_run(&k, 64, false, &passed, &spot) == KBD48_DONE);
    CHECK(kbd48_write(&k, 0x60, 0xed) == KBD48_DONE && kbd48_run(&k, SECOND, true, &passed, &spot) == KBD48_ROSE);
    CHECK(kbd48_read60(&k, &byte) == KBD48_DONE && byte == 0xfa);
    CHECK(kbd48_write(&k, 0x60, 2) == KBD48_DONE && kbd48_run(&k, 40000, false, &passed, &spot) == KBD48_DONE);
    CHECK(passed == 40000 || passed == 40001);
    CHECK(kbd48_lights(&k, &byte) == KBD48_DONE && byte == 2);
    CHECK(kbd48_close(&k) == KBD48_DONE && kbd48_close(&k) == KBD48_NOT_OPEN);
}

static void keys_of_a_layout_become_words(void) {
    kbd48 k = KBD48_EMPTY;
    kbd48_fault fault;
    kbd48_spot spot;
    uint64_t passed;
    uint16_t word = 0;
    CHECK(kbd48_open_layout(one_key, sizeof one_key - 1, &k, &fault) == KBD48_DONE);
    CHECK(kbd48_bios(&k, true) == KBD48_DONE && kbd48_run(&k, SECOND, false, &passed, &spot) == KBD48_DONE);
    CHECK(kbd48_take(&k, &word) == KBD48_NO_WORD && word == 0);
    CHECK(kbd48_key(&k, 96, true) == KBD48_NO_SUCH_PLACE && kbd48_key(&k, 95, true) == KBD48_DONE);
    CHECK(kbd48_run(&k, 20000, false, &passed, &spot) == KBD48_DONE);
    CHECK(kbd48_take(&k, &word) == KBD48_DONE && word == 0x1e61);
    for (int turn = 0; turn < 6; turn++) CHECK(kbd48_key(&k, 95, turn % 2 == 1) == (turn < 4 ? KBD48_DONE : KBD48_FULL));
    CHECK(kbd48_close(&k) == KBD48_DONE);
}

static void a_text_with_a_fault_opens_nothing(void) {
    static const uint8_t no_layout[] = "format = ", no_hex[] = ":00000001FF\n:0";
    static uint8_t longer[65537];
    kbd48 k = KBD48_EMPTY;
    kbd48_fault fault = {9, 9};
    uint64_t cycle;
    CHECK(kbd48_open_layout(no_layout, sizeof no_layout - 1, &k, &fault) == KBD48_BAD_TEXT);
    CHECK(fault.position == 0 && fault.number == 1);
    CHECK(kbd48_open_hex(no_hex, sizeof no_hex - 1, &k, &fault) == KBD48_BAD_TEXT && fault.position == 2);
    memset(longer, '\n', sizeof longer);
    CHECK(kbd48_open_hex(longer, 16385, &k, &fault) == KBD48_TOO_LONG);
    CHECK(kbd48_open_layout(longer, 65537, &k, &fault) == KBD48_TOO_LONG);
    CHECK(kbd48_open_layout(longer + 1, 65536, &k, &fault) == KBD48_BAD_TEXT);
    CHECK(kbd48_cycle(&k, &cycle) == KBD48_NOT_OPEN && !k.at);
}

static void a_program_that_sticks_says_where(void) {
    static const uint8_t stuck[] = ":0100000001FE\n:00000001FF\n";
    kbd48 k = KBD48_EMPTY;
    kbd48_fault fault;
    kbd48_spot spot = {9, 9};
    uint64_t passed = 9;
    uint8_t byte;
    CHECK(kbd48_open_hex(stuck, sizeof stuck - 1, &k, &fault) == KBD48_DONE);
    CHECK(kbd48_run(&k, 10, false, &passed, &spot) == KBD48_STUCK);
    CHECK(passed == 0 && spot.counter == 0 && spot.byte == 1);
    CHECK(kbd48_read60(&k, &byte) == KBD48_EARLY && kbd48_key(&k, 0, true) == KBD48_EARLY);
    CHECK(kbd48_close(&k) == KBD48_DONE);
}

static void looks_take_nothing_and_a_copy_goes_its_own_way(void) {
    kbd48 k = KBD48_EMPTY, copy = KBD48_EMPTY;
    kbd48_fault fault;
    kbd48_spot spot;
    kbd48_registers registers = {7, 7, 7, 7};
    uint64_t passed;
    uint8_t byte, edges, words;
    CHECK(kbd48_look(&k, &registers) == KBD48_NOT_OPEN && registers.status == 7);
    CHECK(kbd48_copy(&k, &copy) == KBD48_NOT_OPEN && !copy.at);
    CHECK(kbd48_open_hex(kernel, kernel_length, &k, &fault) == KBD48_DONE);
    CHECK(kbd48_run(&k, SECOND, true, &passed, &spot) == KBD48_ROSE);
    CHECK(kbd48_look(&k, &registers) == KBD48_DONE && registers.status == 0x15 && registers.output == 0xaa);
    CHECK(registers.command_byte == 0x45 && registers.output_port == 0xcf);
    CHECK(kbd48_copy(&k, &copy) == KBD48_DONE);
    CHECK(kbd48_read60(&k, &byte) == KBD48_DONE && byte == 0xaa);
    CHECK(kbd48_look(&copy, &registers) == KBD48_DONE && registers.status == 0x15);
    CHECK(kbd48_key(&k, 95, true) == KBD48_DONE);
    CHECK(kbd48_waiting(&k, &edges, &words) == KBD48_DONE && edges == 1 && words == 0);
    CHECK(kbd48_run(&k, 1, false, &passed, &spot) == KBD48_DONE);
    CHECK(kbd48_column(&k, 11, &byte) == KBD48_DONE && byte == 0x7f);
    CHECK(kbd48_column(&k, 12, &byte) == KBD48_NO_SUCH_PLACE && byte == 0x7f);
    CHECK(kbd48_cell(&k, 128, &byte) == KBD48_NO_SUCH_CELL && byte == 0x7f);
    CHECK(kbd48_cell(&k, 127, &byte) == KBD48_DONE);
    CHECK(kbd48_close(&k) == KBD48_DONE && kbd48_close(&copy) == KBD48_DONE);
}

static void a_rise_within_a_step_is_counted_and_what_is_said_is_handed_out(void) {
    kbd48 k = KBD48_EMPTY;
    kbd48_fault fault;
    kbd48_spot spot;
    kbd48_item item = {0, 99, 99};
    uint64_t passed, rises = 9, lost = 9;
    uint8_t byte;
    CHECK(kbd48_lost(&k, &lost) == KBD48_NOT_OPEN && lost == 9);
    CHECK(kbd48_rises(&k, &rises) == KBD48_NOT_OPEN && rises == 9);
    CHECK(kbd48_next(&k, &item) == KBD48_NOT_OPEN && item.kind == 99);
    CHECK(kbd48_open_hex(kernel, kernel_length, &k, &fault) == KBD48_DONE);
    CHECK(kbd48_run(&k, SECOND, false, &passed, &spot) == KBD48_DONE);
    CHECK(kbd48_rises(&k, &rises) == KBD48_DONE && rises == 1);
    CHECK(kbd48_write(&k, 0x64, 0xaa) == KBD48_DONE && kbd48_rises(&k, &rises) == KBD48_DONE && rises == 0);
    CHECK(kbd48_read60(&k, &byte) == KBD48_DONE && byte == 0xaa);
    CHECK(kbd48_rises(&k, &rises) == KBD48_DONE && rises == 1);
    CHECK(kbd48_next(&k, &item) == KBD48_DONE);
    CHECK(item.kind == KBD48_ITEM_SENT && item.kind == 18 && item.value == 0xaa && item.cycle < SECOND);
    CHECK(kbd48_next(&k, &item) == KBD48_DONE);
    CHECK(item.kind == KBD48_ITEM_READ && item.kind == 1 && item.value == 0xaa && item.cycle > SECOND);
    CHECK(kbd48_next(&k, &item) == KBD48_NOTHING_SAID && item.kind == 1);
    for (int i = 0; i < 70; i++) CHECK(kbd48_status(&k, &byte) == KBD48_DONE);
    for (int i = 0; i < 64; i++) CHECK(kbd48_next(&k, &item) == KBD48_DONE && item.kind == 8);
    CHECK(kbd48_lost(&k, &lost) == KBD48_DONE && lost == 6 && kbd48_next(&k, &item) == KBD48_LOST);
    CHECK(kbd48_lost(&k, &lost) == KBD48_DONE && lost == 0 && kbd48_next(&k, &item) == KBD48_NOTHING_SAID);
    CHECK(kbd48_close(&k) == KBD48_DONE);
}

static void a_ready_keyboard_has_its_answer_waiting(void) {
    kbd48 k = KBD48_EMPTY;
    kbd48_fault fault;
    uint8_t byte;
    bool up;
    CHECK(kbd48_open_ready_hex(kernel, kernel_length, &k, &fault) == KBD48_DONE);
    CHECK(kbd48_interrupt(&k, &up) == KBD48_DONE && up);
    CHECK(kbd48_open_ready_layout(one_key, sizeof one_key - 1, &k, &fault) == KBD48_DONE);
    CHECK(kbd48_read60(&k, &byte) == KBD48_DONE && byte == 0xaa);
    CHECK(kbd48_open_ready_layout((const uint8_t *)"x", 1, &k, &fault) == KBD48_BAD_TEXT);
    CHECK(kbd48_open_ready_sample(&k) == KBD48_DONE && kbd48_interrupt(&k, &up) == KBD48_DONE && up);
    CHECK(kbd48_read60(&k, &byte) == KBD48_DONE && byte == 0xaa);
    CHECK(kbd48_close(&k) == KBD48_DONE);
}

static void memory_holds_the_byte_that_it_is_switched_on_with(void) {
    static const uint8_t nops[] = ":00000001FF\n";
    kbd48 k = KBD48_EMPTY;
    kbd48_fault fault;
    kbd48_spot spot;
    uint64_t passed;
    uint8_t byte;
    CHECK(kbd48_power_on(&k, 0xa5) == KBD48_NOT_OPEN);
    CHECK(kbd48_open_hex(nops, sizeof nops - 1, &k, &fault) == KBD48_DONE);
    CHECK(kbd48_cell(&k, 127, &byte) == KBD48_DONE && byte == 0);
    CHECK(kbd48_power_on(&k, 0xa5) == KBD48_DONE);
    CHECK(kbd48_cell(&k, 127, &byte) == KBD48_DONE && byte == 0xa5);
    CHECK(kbd48_open_hex(kernel, kernel_length, &k, &fault) == KBD48_DONE);
    for (int i = 0; i < 2; i++) {
        CHECK(kbd48_power_on(&k, i ? 0xff : 0x00) == KBD48_DONE);
        CHECK(kbd48_cycle(&k, &passed) == KBD48_DONE && passed < 4099);
        CHECK(kbd48_run(&k, SECOND, true, &passed, &spot) == KBD48_ROSE);
        CHECK(kbd48_read60(&k, &byte) == KBD48_DONE && byte == 0xaa);
    }
    CHECK(kbd48_close(&k) == KBD48_DONE);
}

static void a_run_says_what_ended_it(void) {
    kbd48 k = KBD48_EMPTY;
    kbd48_fault fault;
    kbd48_spot spot;
    uint64_t passed = 9;
    uint8_t met = 9;
    bool up;
    CHECK(kbd48_run_to(&k, 15, 0, 9, 9, &met, &passed, &spot) == KBD48_NOT_OPEN && met == 0 && passed == 0);
    CHECK(kbd48_open_hex(kernel, kernel_length, &k, &fault) == KBD48_DONE);
    CHECK(kbd48_run_to(&k, 0, 0, SECOND, 5, &met, &passed, &spot) == KBD48_DONE && met == 0 && passed >= 5 && passed <= 10);
    CHECK(kbd48_run_to(&k, 4, 0, SECOND, SECOND, &met, &passed, &spot) == KBD48_DONE && met == 4 && passed > 0);
    CHECK(kbd48_run_to(&k, 3, 0, SECOND, SECOND, &met, &passed, &spot) == KBD48_DONE && met == 1 && passed > 0);
    CHECK(kbd48_interrupt(&k, &up) == KBD48_DONE && up);
    CHECK(kbd48_close(&k) == KBD48_DONE);
}

static void *read_elsewhere(void *handle) {
    kbd48_spot spot;
    uint64_t passed;
    uint8_t byte;
    CHECK(kbd48_run(handle, SECOND, true, &passed, &spot) == KBD48_ROSE);
    CHECK(kbd48_read60(handle, &byte) == KBD48_DONE && byte == 0xaa);
    return NULL;
}

static void *close_elsewhere(void *handle) {
    CHECK(kbd48_close(handle) == KBD48_DONE);
    return NULL;
}

static void a_handle_may_go_to_another_thread(void) {
    kbd48 k = KBD48_EMPTY;
    pthread_t thread;
    uint8_t byte;
    CHECK(kbd48_open_sample(&k) == KBD48_DONE);
    CHECK(!pthread_create(&thread, NULL, read_elsewhere, &k) && !pthread_join(thread, NULL));
    CHECK(kbd48_status(&k, &byte) == KBD48_DONE && byte == 0x14);
    CHECK(!pthread_create(&thread, NULL, close_elsewhere, &k) && !pthread_join(thread, NULL));
    CHECK(kbd48_status(&k, &byte) == KBD48_NOT_OPEN && !k.at);
}

static void a_bit_that_is_turned_round_makes_the_controller_ask_again(void) {
    static const struct { uint8_t kind, value; } happened[] = {
        {18, 0xaa}, {1, 0xaa}, {19, 0xee}, {18, 0xee}, {19, 0xfe}, {18, 0xee}, {1, 0xee},
    };
    kbd48 k = KBD48_EMPTY;
    kbd48_spot spot;
    kbd48_item item;
    uint64_t passed;
    uint8_t byte, keyboard = 7, controller = 7;
    CHECK(kbd48_flip(&k, 1) == KBD48_NOT_OPEN);
    CHECK(kbd48_pulls(&k, &keyboard, &controller) == KBD48_NOT_OPEN && keyboard == 7 && controller == 7);
    CHECK(kbd48_open_sample(&k) == KBD48_DONE && kbd48_run(&k, SECOND, true, &passed, &spot) == KBD48_ROSE);
    CHECK(kbd48_pulls(&k, &keyboard, &controller) == KBD48_DONE && controller == 1);
    CHECK(kbd48_read60(&k, &byte) == KBD48_DONE && byte == 0xaa);
    CHECK(kbd48_flip(&k, 0) == KBD48_NO_SUCH_BIT && kbd48_flip(&k, 10) == KBD48_NO_SUCH_BIT);
    CHECK(kbd48_flip(&k, 255) == KBD48_NO_SUCH_BIT && kbd48_flip(&k, 9) == KBD48_DONE);
    CHECK(kbd48_write(&k, 0x60, 0xee) == KBD48_DONE && kbd48_run(&k, SECOND, true, &passed, &spot) == KBD48_ROSE);
    CHECK(kbd48_read60(&k, &byte) == KBD48_DONE && byte == 0xee);
    for (size_t i = 0; i < sizeof happened / sizeof *happened; i++) {
        CHECK(kbd48_next(&k, &item) == KBD48_DONE);
        CHECK(item.kind == happened[i].kind && item.value == happened[i].value);
    }
    CHECK(kbd48_next(&k, &item) == KBD48_NOTHING_SAID && kbd48_close(&k) == KBD48_DONE);
}

static void keys_that_are_pushed_at_once_are_read_in_their_order(void) {
    static const uint8_t wanted[] = {0x2a, 0x23, 0xa3, 0xaa};
    kbd48 k = KBD48_EMPTY;
    kbd48_keys keys = KBD48_NO_KEYS;
    kbd48_spot spot = {7, 7};
    uint64_t passed = 7;
    uint8_t byte, count;
    bool up = false;
    CHECK(kbd48_run_keys(&k, &keys, 1, false, &passed, &spot) == KBD48_NOT_OPEN && passed == 0 && spot.byte == 7);
    CHECK(kbd48_open_sample(&k) == KBD48_DONE && kbd48_run(&k, SECOND, true, &passed, &spot) == KBD48_ROSE);
    CHECK(kbd48_read60(&k, &byte) == KBD48_DONE && byte == 0xaa);
    CHECK(kbd48_queue_key(&keys, 0, 41, true) == KBD48_DONE && kbd48_queue_key(&keys, 0, 34, true) == KBD48_DONE);
    CHECK(kbd48_queue_key(&keys, 0, 34, true) == KBD48_REPEATED);
    CHECK(kbd48_queue_key(&keys, 0, 96, true) == KBD48_NO_SUCH_PLACE);
    CHECK(kbd48_release_all(&keys, 0) == KBD48_DONE && kbd48_queued(&keys, &count) == KBD48_DONE && count == 4);
    for (size_t i = 0; i < sizeof wanted; i++) {
        for (int turn = 0; turn < 3 && !up; turn++) {
            (void)kbd48_run_keys(&k, &keys, SECOND, true, &passed, &spot);
            CHECK(kbd48_interrupt(&k, &up) == KBD48_DONE);
        }
        CHECK(kbd48_read60(&k, &byte) == KBD48_DONE && byte == wanted[i]);
        CHECK(kbd48_interrupt(&k, &up) == KBD48_DONE);
    }
    CHECK(kbd48_queued(&keys, &count) == KBD48_DONE && count == 0 && kbd48_close(&k) == KBD48_DONE);
}

/* The queue gives a press 2,240 cycles, and with a debounce 4,480, since two looks must show it. */
static void a_press_lasts_as_long_as_its_layout_needs(void) {
    static const struct { const char *text; uint64_t press; } layouts[] = {
        {"format = 1\n[[key]]\nkey = \"a\"\ncolumn = 11\nrow = 7\n", 2240},
        {"format = 1\ndebounce = true\n[[key]]\nkey = \"a\"\ncolumn = 11\nrow = 7\n", 4480},
    };
    for (size_t i = 0; i < sizeof layouts / sizeof *layouts; i++) {
        kbd48 k = KBD48_EMPTY;
        kbd48_keys keys = KBD48_NO_KEYS;
        kbd48_fault fault;
        kbd48_spot spot;
        uint64_t passed;
        uint16_t word = 0;
        CHECK(kbd48_open_layout((const uint8_t *)layouts[i].text, strlen(layouts[i].text), &k, &fault) == KBD48_DONE);
        CHECK(kbd48_bios(&k, true) == KBD48_DONE && kbd48_run(&k, SECOND, false, &passed, &spot) == KBD48_DONE);
        for (int stroke = 0; stroke < 2; stroke++)
            for (int down = 1; down >= 0; down--) CHECK(kbd48_queue_key(&keys, 0, 95, down) == KBD48_DONE);
        CHECK(kbd48_run_keys(&k, &keys, SECOND, false, &passed, &spot) == KBD48_KEY_DUE);
        CHECK(passed == layouts[i].press || passed == layouts[i].press + 1);
        CHECK(kbd48_run_keys(&k, &keys, SECOND, false, &passed, &spot) == KBD48_KEY_DUE);
        CHECK(passed >= 4479 && passed <= 4481);
        CHECK(kbd48_run_keys(&k, &keys, SECOND, false, &passed, &spot) == KBD48_KEY_DUE);
        CHECK(kbd48_run_keys(&k, &keys, 20000, false, &passed, &spot) == KBD48_DONE);
        for (int stroke = 0; stroke < 2; stroke++) CHECK(kbd48_take(&k, &word) == KBD48_DONE && word == 0x1e61);
        CHECK(kbd48_take(&k, &word) == KBD48_NO_WORD && kbd48_close(&k) == KBD48_DONE);
    }
}

static void a_key_has_its_place_by_its_name(void) {
    static const uint8_t text[] = "format = 1\n[[key]]\nkey = \"h\"\ncolumn = 1\nrow = 2\n", no_layout[] = "format = ";
    static const uint8_t g = 'g', h = 'h', capital_h = 'H';
    uint8_t place = 7;
    CHECK(kbd48_sample_key(&h, 1, &place) == KBD48_DONE && place == 34);
    CHECK(kbd48_sample_key(&capital_h, 1, &place) == KBD48_NO_SUCH_KEY && place == 34);
    CHECK(kbd48_layout_key(no_layout, sizeof no_layout - 1, &h, 1, &place) == KBD48_BAD_TEXT && place == 34);
    CHECK(kbd48_layout_key(no_layout, sizeof no_layout - 1, &capital_h, 1, &place) == KBD48_NO_SUCH_KEY && place == 34);
    CHECK(kbd48_layout_key(text, sizeof text - 1, &h, 1, &place) == KBD48_DONE && place == 10);
    CHECK(kbd48_layout_key(text, sizeof text - 1, &g, 1, &place) == KBD48_NO_SUCH_KEY && place == 10);
}

static void a_keyboard_is_loaded_as_it_was_saved_and_other_bytes_are_refused(void) {
    static const struct { size_t at; uint8_t byte; int32_t status; } changes[] = {
        {0, 0, KBD48_NOT_SAVED}, {7, 2, KBD48_OTHER_VERSION}, {124, 16, KBD48_BAD_STATE},
    };
    static uint8_t below[KBD48_SAVED - 1], above[KBD48_SAVED + 3];
    static uint8_t saved[KBD48_SAVED], again[KBD48_SAVED], changed[KBD48_SAVED];
    kbd48 k = KBD48_EMPTY, other = KBD48_EMPTY;
    kbd48_spot spot;
    uint64_t passed;
    CHECK(sizeof saved == 3077);
    memset(below, 7, sizeof below), memset(above, 7, sizeof above);
    memset(saved, 7, sizeof saved), memset(again, 7, sizeof again);
    CHECK(kbd48_save(&k, saved, sizeof saved) == KBD48_NOT_OPEN);
    CHECK(kbd48_open_sample(&k) == KBD48_DONE && kbd48_run(&k, SECOND, true, &passed, &spot) == KBD48_ROSE);
    CHECK(kbd48_save(&k, below, sizeof below) == KBD48_BAD_SIZE && below[0] == 7);
    CHECK(kbd48_save(&k, above, sizeof above) == KBD48_DONE && above[3077] == 7);
    CHECK(kbd48_save(&k, saved, sizeof saved) == KBD48_DONE);
    CHECK(kbd48_load(&other, above, sizeof above) == KBD48_BAD_SIZE && !other.at);
    CHECK(kbd48_load(&other, saved, sizeof saved) == KBD48_DONE);
    CHECK(kbd48_save(&other, again, sizeof again) == KBD48_DONE && !memcmp(saved, again, sizeof saved));
    for (size_t i = 0; i < sizeof changes / sizeof *changes; i++) {
        memcpy(changed, saved, sizeof saved);
        changed[changes[i].at] = changes[i].byte;
        CHECK(kbd48_load(&other, changed, sizeof changed) == changes[i].status);
    }
    CHECK(kbd48_close(&k) == KBD48_DONE && kbd48_close(&other) == KBD48_DONE);
}

/* Each tick looks at the matrix once, every 2,048 cycles. So a key that bounces for less than that goes down once and up once,
   wherever in a tick it begins. */
static void a_key_that_bounces_is_typed_once(void) {
    static const uint64_t bounces[] = {300, 150, 500, 60}; /* cycles from one change of the contact to the next */
    for (uint64_t late = 0; late < 2048; late += 89) {
        kbd48 k = KBD48_EMPTY;
        kbd48_fault fault;
        kbd48_spot spot;
        kbd48_item item = {0, 0, 0};
        uint64_t passed;
        uint16_t word = 0;
        int ports = 0;
        CHECK(kbd48_open_layout(one_key, sizeof one_key - 1, &k, &fault) == KBD48_DONE && kbd48_bios(&k, true) == KBD48_DONE);
        CHECK(kbd48_run(&k, SECOND + late, false, &passed, &spot) == KBD48_DONE);
        while (kbd48_next(&k, &item) == KBD48_DONE) {
        }
        for (int way = 0; way < 2; way++) {
            bool down = way == 0;
            CHECK(kbd48_key(&k, 95, down) == KBD48_DONE);
            for (int n = 0; n < 4; n++) {
                CHECK(kbd48_run(&k, bounces[n], false, &passed, &spot) == KBD48_DONE);
                CHECK(kbd48_key(&k, 95, n % 2 == 0 ? !down : down) == KBD48_DONE);
            }
            CHECK(kbd48_run(&k, 20000, false, &passed, &spot) == KBD48_DONE);
            while (kbd48_next(&k, &item) == KBD48_DONE) {
                if (item.kind != KBD48_ITEM_PORT) continue;
                CHECK(item.value == (down ? 0x1e : 0x9e));
                ports++;
            }
            CHECK(ports == way + 1);
        }
        CHECK(kbd48_take(&k, &word) == KBD48_DONE && word == 0x1e61 && kbd48_take(&k, &word) == KBD48_NO_WORD);
        CHECK(kbd48_close(&k) == KBD48_DONE);
    }
}

int main(void) {
    FILE *file = fopen("examples/us84.hex", "rb");
    CHECK(file && (kernel_length = fread(kernel, 1, sizeof kernel, file)) > 0);
    fclose(file);
    an_empty_handle_says_so_and_does_nothing();
    a_host_hears_the_self_test_and_sets_the_lights();
    keys_of_a_layout_become_words();
    a_key_that_bounces_is_typed_once();
    a_text_with_a_fault_opens_nothing();
    a_program_that_sticks_says_where();
    looks_take_nothing_and_a_copy_goes_its_own_way();
    a_rise_within_a_step_is_counted_and_what_is_said_is_handed_out();
    a_ready_keyboard_has_its_answer_waiting();
    memory_holds_the_byte_that_it_is_switched_on_with();
    a_run_says_what_ended_it();
    a_handle_may_go_to_another_thread();
    a_bit_that_is_turned_round_makes_the_controller_ask_again();
    keys_that_are_pushed_at_once_are_read_in_their_order();
    a_press_lasts_as_long_as_its_layout_needs();
    a_key_has_its_place_by_its_name();
    a_keyboard_is_loaded_as_it_was_saved_and_other_bytes_are_refused();
    puts("worked: seventeen worked examples, call by call");
}
