/* Keyboards in threads of their own, all at the same time: each answers as it does when it runs alone.
   threads HEX COUNT */
#include "kbd48.h"
#include <pthread.h>
#include <stdio.h>
#include <stdlib.h>

enum { THREADS = 8 };

static uint8_t hex[16384];
static size_t length;
static unsigned long count;

typedef struct {
    uint64_t state, sum;
    bool failed;
} session;

static uint32_t random_below(session *it, uint32_t most) {
    it->state = it->state * 6364136223846793005u + 1442695040888963407u;
    return (uint32_t)(it->state >> 33) % most;
}

static void add(session *it, uint64_t number) { it->sum = (it->sum ^ number) * 0x100000001b3u; }

/* Opens a keyboard, types on it at random by a queue, copies, saves, and closes it. */
static void *used(void *of) {
    session *it = of;
    kbd48 k = KBD48_EMPTY, copy = KBD48_EMPTY;
    kbd48_keys queue = KBD48_NO_KEYS;
    kbd48_fault fault;
    kbd48_spot spot;
    kbd48_item item;
    uint64_t passed, cycle;
    uint8_t saved[KBD48_SAVED], byte, place = 0;
    it->failed = kbd48_open_ready_hex(hex, length, &k, &fault) != KBD48_DONE || kbd48_bios(&k, true) != KBD48_DONE;
    it->failed |= kbd48_sample_key((const uint8_t *)"a", 1, &place) != KBD48_DONE;
    for (unsigned long call = 0; call < count && !it->failed; call++) {
        uint32_t some = random_below(it, 84), down = random_below(it, 2), cycles = random_below(it, 4000);
        kbd48_cycle(&k, &cycle);
        add(it, (uint64_t)kbd48_queue_key(&queue, cycle, (uint8_t)(some ? some : place), down));
        add(it, (uint64_t)kbd48_run_keys(&k, &queue, cycles, down, &passed, &spot) * 100000 + passed);
        while (kbd48_next(&k, &item) == KBD48_DONE) add(it, item.cycle * 65536 + item.value);
        if (call % 16 == 0) {
            it->failed = kbd48_copy(&k, &copy) || kbd48_save(&copy, saved, sizeof saved) || kbd48_load(&k, saved, sizeof saved);
            for (size_t i = 0; i < sizeof saved; i++) add(it, saved[i]);
        }
        kbd48_queued(&queue, &byte), add(it, byte);
    }
    it->failed |= kbd48_close(&k) != KBD48_DONE || (count > 0 && kbd48_close(&copy) != KBD48_DONE);
    return NULL;
}

int main(int argc, char **argv) {
    session alone[THREADS], beside[THREADS];
    pthread_t threads[THREADS];
    FILE *file = argc == 3 ? fopen(argv[1], "rb") : NULL;
    if (!file) return 2;
    length = fread(hex, 1, sizeof hex, file);
    fclose(file);
    count = strtoul(argv[2], NULL, 10);
    for (uint64_t i = 0; i < THREADS; i++) {
        alone[i] = beside[i] = (session){i, 0, false};
        used(&alone[i]);
    }
    for (int i = 0; i < THREADS; i++)
        if (pthread_create(&threads[i], NULL, used, &beside[i])) return 2;
    for (int i = 0; i < THREADS; i++) {
        pthread_join(threads[i], NULL);
        if (alone[i].failed || beside[i].failed || alone[i].sum != beside[i].sum || (i > 0 && alone[i].sum == alone[0].sum)) {
            fprintf(stderr, "threads: keyboard %d did otherwise beside the others\n", i);
            return 1;
        }
    }
    printf("threads: %d keyboards at the same time did as each alone\n", THREADS);
}
