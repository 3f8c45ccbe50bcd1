/* Random calls of the C library, and a checksum of what they answer: LAYOUT SEED COUNT. lab/tests/module.mjs makes the same
   calls of the module in the page. */
#include "kbd48.h"
#include <inttypes.h>
#include <stdio.h>
#include <stdlib.h>

static uint64_t state, sum = 14695981039346656037u;

static uint64_t random_below(uint64_t count) {
    state = state * 6364136223846793005u + 1442695040888963407u;
    return (state >> 33) % count;
}

static void add(uint64_t value) {
    for (int bit = 0; bit < 64; bit += 8) sum = (sum ^ (value >> bit & 255)) * 1099511628211u;
}

/* What a random call answers: its status, or what it hands out if there is something. */
static uint64_t answer(kbd48 *keyboard, kbd48_keys *keys, long number) {
    uint64_t what = random_below(16), x = random_below(256), cycles = random_below(3000), flag = random_below(2), passed, now;
    kbd48_registers registers;
    kbd48_processor inside;
    kbd48_spot spot;
    kbd48_item item;
    uint16_t word;
    uint8_t byte, other;
    bool clock, data;
    switch (what) {
    case 0:
    case 1: return (uint64_t)kbd48_key(keyboard, x % 96, flag);
    case 2: return (uint64_t)kbd48_write(keyboard, flag ? 0x60 : 0x64, x);
    case 3: return kbd48_read60(keyboard, &byte) ? 999 : byte;
    case 4: return kbd48_status(keyboard, &byte) ? 999 : byte;
    case 5: return kbd48_take(keyboard, &word) ? 99999 : word;
    case 6:
        if (number % 50) return kbd48_lights(keyboard, &byte) ? 999 : byte;
        return (uint64_t)kbd48_bios(keyboard, flag);
    case 7:
        kbd48_wires(keyboard, &clock, &data);
        return clock | data << 1;
    case 8: return (uint64_t)kbd48_flip(keyboard, x % 11);
    case 9:
        kbd48_pulls(keyboard, &byte, &other);
        return byte | other << 2;
    case 10: {
        int32_t status = kbd48_next(keyboard, &item);
        return status ? (uint64_t)status : item.cycle * 100 + item.kind + ((uint64_t)item.value << 40);
    }
    case 11:
        kbd48_cycle(keyboard, &now);
        return (uint64_t)kbd48_queue_key(keys, now, x % 96, flag);
    case 12: {
        int32_t status = kbd48_run_keys(keyboard, keys, cycles, flag, &passed, &spot);
        return (uint64_t)status * 1000000 + passed;
    }
    case 13: {
        int32_t status = kbd48_run_to(keyboard, x & 15, x * 8, cycles, 500, &byte, &passed, &spot);
        return (uint64_t)status * 1000000 + passed + ((uint64_t)byte << 32);
    }
    case 14:
        kbd48_look(keyboard, &registers);
        kbd48_inside(keyboard, &inside);
        kbd48_cell(keyboard, x % 128, &byte);
        return registers.status | registers.output << 8 | registers.command_byte << 16 | (uint64_t)inside.counter << 24 |
               (uint64_t)inside.a << 36 | (uint64_t)byte << 44;
    default: return (uint64_t)kbd48_run(keyboard, cycles, flag, &passed, &spot) * 1000000 + passed;
    }
}

int main(int argc, char **argv) {
    static uint8_t text[65536];
    FILE *file = argc == 4 ? fopen(argv[1], "rb") : NULL;
    if (!file) return 2;
    size_t length = fread(text, 1, sizeof text, file);
    fclose(file);
    kbd48 keyboard = KBD48_EMPTY;
    static kbd48_keys keys = KBD48_NO_KEYS;
    kbd48_fault fault;
    uint64_t cycle = 0;
    if (kbd48_open_layout(text, length, &keyboard, &fault) != KBD48_DONE) return 1;
    state = strtoull(argv[2], NULL, 10) * 2 + 1;
    for (long number = 0; number < atol(argv[3]); number++) {
        bool clock, data;
        add(answer(&keyboard, &keys, number));
        kbd48_wires(&keyboard, &clock, &data);
        kbd48_cycle(&keyboard, &cycle);
        add(cycle * 4 + (clock | data << 1));
    }
    kbd48_close(&keyboard);
    printf("%016" PRIx64 " cycle %" PRIu64 "\n", sum, cycle);
    return 0;
}
