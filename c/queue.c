/* The queue of edges: what is typed at once arrives as it was typed, and short strokes arrive. Nothing is dropped without a
   word. The sample layout is built in. */
#include "kbd48.h"
#include <stdio.h>
#include <stdlib.h>
#include <string.h>

#define CHECK(x) \
    do { \
        if (!(x)) { \
            fprintf(stderr, "%s:%d: %s\n", __FILE__, __LINE__, #x); \
            exit(1); \
        } \
    } while (0)

enum { CYCLES_PER_MS = 400 };

static kbd48 keyboard = KBD48_EMPTY;
static kbd48_keys keys = KBD48_NO_KEYS;
static char typed[2048];
static size_t length;

static uint8_t place_of(const char *name) {
    uint8_t place = 0;
    CHECK(kbd48_sample_key((const uint8_t *)name, strlen(name), &place) == KBD48_DONE);
    return place;
}

static uint64_t now(void) {
    uint64_t cycle;
    CHECK(kbd48_cycle(&keyboard, &cycle) == KBD48_DONE);
    return cycle;
}

static void push(uint8_t place, bool down) { CHECK(kbd48_queue_key(&keys, now(), place, down) == KBD48_DONE); }

/* Runs to an absolute cycle, through each edge that is due, and takes the words that INT 09h entered. */
static void run_to(uint64_t end) {
    uint64_t passed;
    kbd48_spot spot;
    while (now() < end) {
        uint64_t slice = now() + 4 * CYCLES_PER_MS < end ? 4 * CYCLES_PER_MS : end - now();
        int32_t status = kbd48_run_keys(&keyboard, &keys, slice, false, &passed, &spot);
        CHECK(status == KBD48_DONE || (status == KBD48_KEY_DUE && passed < slice));
        uint16_t word;
        while (kbd48_take(&keyboard, &word) == KBD48_DONE)
            if (word & 0xff) typed[length++] = (char)(word & 0xff);
    }
}

static unsigned queued(void) {
    uint8_t count;
    CHECK(kbd48_queued(&keys, &count) == KBD48_DONE);
    return count;
}

/* The key of a character on the sample layout, and whether it needs Shift. */
static uint8_t key_of(char c, bool *shift) {
    static const struct {
        char character;
        const char *name;
        bool shift;
    } others[] = {{' ', "space", false}, {',', "comma", false}, {'!', "1", true}};
    char name[] = {c >= 'A' && c <= 'Z' ? (char)(c - 'A' + 'a') : c, 0};
    *shift = c >= 'A' && c <= 'Z';
    for (size_t i = 0; i < sizeof others / sizeof *others; i++)
        if (others[i].character == c) {
            *shift = others[i].shift;
            return place_of(others[i].name);
        }
    return place_of(name);
}

static void hello(void) {
    const char *text = "Hello, World!";
    uint8_t left = place_of("lshift");
    for (const char *c = text; *c; c++) {
        bool shift;
        uint8_t place = key_of(*c, &shift);
        if (shift) push(left, true);
        push(place, true);
        push(place, false);
        if (shift) push(left, false);
    }
    CHECK(queued() == 32);
    kbd48_keys copy = keys;
    run_to(now() + 400 * CYCLES_PER_MS);
    CHECK(queued() == 0 && length == strlen(text) && !memcmp(typed, text, length));
    CHECK(copy.count == 32);
}

static void strokes(void) {
    uint8_t place = place_of("a");
    length = 0;
    for (int i = 0; i < 500; i++) {
        push(place, true);
        run_to(now() + 1000);
        push(place, false);
        run_to(now() + 37 * CYCLES_PER_MS + 17);
    }
    CHECK(length == 500 && strspn(typed, "a") >= 500);
}

static void refusals(void) {
    uint8_t column;
    CHECK(kbd48_queue_key(&keys, now(), 96, true) == KBD48_NO_SUCH_PLACE);
    CHECK(kbd48_queue_key(&keys, now(), 0, false) == KBD48_REPEATED && queued() == 0);
    for (uint8_t i = 0; i < 64; i++) push(i, true);
    kbd48_keys full = keys;
    CHECK(kbd48_queue_key(&keys, now(), 64, true) == KBD48_FULL && !memcmp(&keys, &full, sizeof keys));
    CHECK(kbd48_queue_key(&keys, now(), 7, true) == KBD48_REPEATED);
    for (uint8_t i = 0; i < 10; i++) push(i, false);
    CHECK(kbd48_release_all(&keys, now()) == KBD48_DONE && queued() == 128);
    run_to(now() + 1200 * CYCLES_PER_MS);
    CHECK(queued() == 0);
    for (uint8_t i = 0; i < 12; i++) CHECK(kbd48_column(&keyboard, i, &column) == KBD48_DONE && column == 0xff);
}

/* An edge of a later cycle waits for it; and one waits while four edges that were handed over by hand do. */
static void later(void) {
    uint8_t a = place_of("a"), edges, words, rows;
    uint64_t passed, at = now() + 40000;
    kbd48_spot spot;
    CHECK(kbd48_queue_key(&keys, at, a, true) == KBD48_DONE && kbd48_queue_key(&keys, at, a, false) == KBD48_DONE);
    CHECK(kbd48_run_keys(&keyboard, &keys, 100000, false, &passed, &spot) == KBD48_KEY_DUE);
    CHECK(now() >= at && now() <= at + 1 && queued() == 2);
    for (int i = 0; i < 4; i++) CHECK(kbd48_key(&keyboard, place_of("f1"), i % 2 == 0) == KBD48_DONE);
    CHECK(kbd48_run_keys(&keyboard, &keys, 100000, false, &passed, &spot) == KBD48_KEY_DUE && passed <= 2);
    CHECK(kbd48_waiting(&keyboard, &edges, &words) == KBD48_DONE && edges == 0 && queued() == 2);
    CHECK(kbd48_run_keys(&keyboard, &keys, 1, false, &passed, &spot) == KBD48_DONE && queued() == 1);
    CHECK(kbd48_column(&keyboard, a / 8, &rows) == KBD48_DONE && !(rows >> a % 8 & 1));
    CHECK(kbd48_run_keys(&keyboard, &keys, 100000, false, &passed, &spot) == KBD48_KEY_DUE);
    CHECK(passed >= 2230 && passed <= 2241);
    run_to(now() + 100 * CYCLES_PER_MS);
}

/* The queue as bytes: a save is loaded as the same queue, which goes on as the other does; and nothing beyond them is written. */
static void saved(void) {
    static const uint8_t name[] = {'K', 'B', 'D', '4', '8', 'Q', 'U', 1};
    uint8_t bytes[KBD48_SAVED_KEYS + 1], again[KBD48_SAVED_KEYS], a = place_of("a");
    kbd48_keys loaded = KBD48_NO_KEYS, empty = KBD48_NO_KEYS;
    push(a, true), push(a, false), push(95, true);
    bytes[KBD48_SAVED_KEYS] = 7;
    CHECK(kbd48_save_keys(&keys, bytes, KBD48_SAVED_KEYS - 1) == KBD48_BAD_SIZE);
    CHECK(kbd48_save_keys(&keys, bytes, sizeof bytes) == KBD48_DONE && bytes[KBD48_SAVED_KEYS] == 7);
    CHECK(!memcmp(bytes, name, sizeof name) && bytes[16] == 3);
    for (int i = 17; i < 29; i++) CHECK(bytes[i] == (i == 28 ? 0x7f : 0xff));
    for (int i = 0; i < 3; i++) CHECK(bytes[29 + 10 * i + 8] == (i < 2 ? a : 95) && bytes[29 + 10 * i + 9] == (i != 1));
    for (int i = 29 + 3 * 10; i < KBD48_SAVED_KEYS; i++) CHECK(bytes[i] == 0);
    CHECK(kbd48_load_keys(&loaded, bytes, KBD48_SAVED_KEYS) == KBD48_DONE && loaded.count == 3 && loaded.down[95]);
    CHECK(loaded.ready == keys.ready && loaded.edges[0].stamp == keys.edges[0].stamp && !loaded.edges[1].down);
    CHECK(kbd48_save_keys(&loaded, again, sizeof again) == KBD48_DONE && !memcmp(bytes, again, sizeof again));
    keys = loaded;
    length = 0;
    run_to(now() + 100 * CYCLES_PER_MS);
    CHECK(length == 1 && typed[0] == 'a' && queued() == 0);
    CHECK(kbd48_release_all(&keys, now()) == KBD48_DONE && queued() == 1);
    run_to(now() + 100 * CYCLES_PER_MS);
    CHECK(kbd48_save_keys(&empty, again, sizeof again) == KBD48_DONE && again[16] == 0);
    CHECK(kbd48_load_keys(&loaded, again, sizeof again) == KBD48_DONE && loaded.count == 0 && !loaded.down[95] && !loaded.ready);
}

/* What is in no order: whatever bytes a queue has, no call goes wrong. Its save is loaded as the same queue, or it has an edge at
   no place. */
static void random_queues(void) {
    for (unsigned i = 0; i < 2000; i++) {
        kbd48_keys any;
        uint8_t *bytes = (uint8_t *)&any;
        for (size_t j = 0; j < sizeof any; j++) bytes[j] = (uint8_t)(rand() >> 7);
        for (size_t j = 0; j < 160; j++) any.edges[j].down = bytes[j] & 1;
        for (size_t j = 0; j < 96; j++) any.down[j] = bytes[j] & 2;
        uint64_t passed;
        kbd48_spot spot;
        uint8_t count;
        CHECK(kbd48_queue_key(&any, now(), (uint8_t)rand(), rand() & 1) < 32);
        CHECK(kbd48_queued(&any, &count) == KBD48_DONE && count <= 160);
        CHECK(kbd48_run_keys(&keyboard, &any, 100, false, &passed, &spot) < 32);
        CHECK(kbd48_release_all(&any, now()) == KBD48_DONE);
        uint8_t first[KBD48_SAVED_KEYS], second[KBD48_SAVED_KEYS];
        bool placed = true;
        CHECK(kbd48_queued(&any, &count) == KBD48_DONE);
        for (size_t j = 0; j < count; j++) placed = placed && any.edges[j].place < 96;
        CHECK(kbd48_save_keys(&any, first, sizeof first) == KBD48_DONE);
        CHECK(kbd48_load_keys(&any, first, sizeof first) == (placed ? KBD48_DONE : KBD48_BAD_STATE));
        CHECK(kbd48_save_keys(&any, second, sizeof second) == KBD48_DONE && !memcmp(first, second, sizeof first));
    }
}

int main(void) {
    uint8_t place = 7;
    uint64_t passed;
    kbd48_spot where = {7, 7};
    CHECK(kbd48_run_keys(&keyboard, &keys, 1, false, &passed, &where) == KBD48_NOT_OPEN && passed == 0 && where.byte == 7);
    CHECK(kbd48_version() == KBD48_VERSION_NUMBER);
    CHECK(kbd48_sample_key((const uint8_t *)"H", 1, &place) == KBD48_NO_SUCH_KEY && place == 7);
    CHECK(kbd48_layout_key((const uint8_t *)"format = ", 9, (const uint8_t *)"h", 1, &place) == KBD48_BAD_TEXT && place == 7);
    CHECK(kbd48_open_sample(&keyboard) == KBD48_DONE);
    CHECK(kbd48_bios(&keyboard, true) == KBD48_DONE);
    run_to(now() + 400 * CYCLES_PER_MS);
    hello();
    strokes();
    refusals();
    later();
    saved();
    random_queues();
    CHECK(kbd48_close(&keyboard) == KBD48_DONE);
    puts("the queue of edges: what was typed arrived");
}
