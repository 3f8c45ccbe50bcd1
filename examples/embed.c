/* The keyboard inside a program of one's own: somebody types H, i and Enter on the sample layout, at the times of
   typing_hi.keys, and this prints what `kbd48 run` prints for that file.
   cc -I dist examples/embed.c dist/libkbd48.a -o embed && ./embed examples/us84.toml */
#include "kbd48.h"
#include <stdio.h>
#include <stdlib.h>

static kbd48 keyboard = KBD48_EMPTY;
static uint16_t words[16];
static unsigned entered, taken;

static void need(int32_t status) {
    if (status == KBD48_DONE || status == KBD48_ROSE || status == KBD48_NO_WORD) return;
    fprintf(stderr, "%s\n", kbd48_text(status));
    exit(1);
}

static unsigned tick(void) { /* a tick has 2,048 cycles; stamp 0 is cycle 4,096 */
    uint64_t cycle;
    need(kbd48_cycle(&keyboard, &cycle));
    return (unsigned)((cycle - 4096) / 2048);
}

static void run_to(unsigned ms) { /* INT 09h reads at each interrupt, 64 cycles after it */
    for (uint64_t cycle, end = 4096 + 400 * (uint64_t)ms, passed; need(kbd48_cycle(&keyboard, &cycle)), cycle < end;) {
        kbd48_spot spot;
        uint8_t byte;
        bool up = true;
        if (kbd48_run(&keyboard, end - cycle, true, &passed, &spot) != KBD48_ROSE) continue;
        for (; up; need(kbd48_interrupt(&keyboard, &up))) need(kbd48_run(&keyboard, 1, false, &passed, &spot));
        printf("%u port ", tick());
        need(kbd48_read60(&keyboard, &byte));
        printf("%02X\n", byte);
        for (; kbd48_take(&keyboard, &words[entered]) == KBD48_DONE; entered++)
            printf("%u word %04X\n", tick(), words[entered]);
    }
}

int main(int argc, char **argv) {
    static uint8_t text[65536];
    static const struct { unsigned ms, place; bool down; } keys[] = {
        {400, 41, true}, {450, 34, true}, {500, 34, false}, {550, 41, false},
        {600, 23, true}, {645, 23, false}, {700, 40, true}, {745, 40, false},
    };
    FILE *file = fopen(argc > 1 ? argv[1] : "examples/us84.toml", "rb");
    size_t length = file ? fread(text, 1, sizeof text, file) : 0;
    kbd48_fault fault;
    need(kbd48_open_layout(text, length, &keyboard, &fault));
    need(kbd48_bios(&keyboard, true));
    for (unsigned i = 0; i < sizeof keys / sizeof *keys; i++) {
        run_to(keys[i].ms);
        need(kbd48_key(&keyboard, (uint8_t)keys[i].place, keys[i].down));
    }
    run_to(780);
    for (; taken < entered; taken++) printf("%u taken %04X\n", tick(), words[taken]);
    printf("%u taken none\n", tick());
    return kbd48_close(&keyboard);
}
