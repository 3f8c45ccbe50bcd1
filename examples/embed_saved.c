/* Save states: a keyboard of the sample layout is saved when it has tested itself. Then somebody types h, and this prints
   what happened and what is inside. A second keyboard is loaded of the save, and the same calls print the same.
   cc -I dist examples/embed_saved.c dist/libkbd48.a -o embed_saved && ./embed_saved */
#include "kbd48.h"
#include <stdio.h>
#include <stdlib.h>
#include <string.h>

enum { H = 34, LAST = 76 }; /* a place, and the cell that has the last byte which the keyboard sent (docs/FIRMWARE.md) */

static const char *const kinds[] = {
    "port", "read", "word", "beep", "overrun", "lights", "taken", "taken_none", "status", "output", "pulse", "broke",
    "pause", "resume", "print", "boot", "sys_make", "sys_break", "sent", "given",
};

static void need(int32_t status) {
    if (status == KBD48_DONE) return;
    fprintf(stderr, "%s\n", kbd48_text(status));
    exit(1);
}

static void run(kbd48 *k, uint64_t cycles) {
    uint64_t passed;
    kbd48_spot spot;
    need(kbd48_run(k, cycles, false, &passed, &spot));
}

/* What happened since this was last asked, and what is inside now, as text. */
static void report(kbd48 *k, char *text, size_t room) {
    kbd48_item item;
    kbd48_processor inside;
    uint64_t cycle;
    uint8_t byte;
    size_t used = 0;
    while (kbd48_next(k, &item) == KBD48_DONE)
        used += (size_t)snprintf(text + used, room - used, "%llu %s %04X\n", (unsigned long long)item.cycle, kinds[item.kind], item.value);
    need(kbd48_inside(k, &inside)), need(kbd48_cell(k, LAST, &byte)), need(kbd48_cycle(k, &cycle));
    snprintf(text + used, room - used, "cycle %llu: counter %03X, accumulator %02X, cell %u %02X\n", (unsigned long long)cycle,
             inside.counter, inside.a, LAST, byte);
}

static void type_h(kbd48 *k, char *text, size_t room) {
    need(kbd48_key(k, H, true)), run(k, 20000);
    need(kbd48_key(k, H, false)), run(k, 20000);
    report(k, text, room);
}

int main(void) {
    static uint8_t saved[KBD48_SAVED];
    static char first[4096], second[4096];
    kbd48 keyboard = KBD48_EMPTY, loaded = KBD48_EMPTY;
    need(kbd48_open_sample(&keyboard)), need(kbd48_bios(&keyboard, true));
    run(&keyboard, 160000);
    report(&keyboard, first, sizeof first);
    printf("%s", first);
    need(kbd48_save(&keyboard, saved, sizeof saved));
    type_h(&keyboard, first, sizeof first);
    printf("saved\n%s", first);
    need(kbd48_load(&loaded, saved, sizeof saved));
    type_h(&loaded, second, sizeof second);
    printf("loaded\n%s", second);
    saved[7]++;
    printf("of another version: %s\n", kbd48_load(&loaded, saved, sizeof saved) == KBD48_OTHER_VERSION ? "refused" : "taken");
    need(kbd48_close(&keyboard)), need(kbd48_close(&loaded));
    return strcmp(first, second) != 0;
}
