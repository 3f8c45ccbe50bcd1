/* Tries the processor alone as its callers use it: each call, each field of the struct, copies by assignment; and single steps
   with their outcomes, if there are some (-DVECTORS="FILE", made by tests/chip_vectors). It needs no C library: compiled
   freestanding, `tests/bare.c` has its start and its output. */
#include "kbd48_chip.h"

#ifdef VECTORS
#include VECTORS
#endif

static kbd48_chip chip = KBD48_NO_CHIP, other = KBD48_NO_CHIP;
static kbd48_program program;
static kbd48_chip_saved saved, again;

#define FAILS(what) return "c/chip.c: " what
#define CHECK(what) do { if (!(what)) FAILS(#what); } while (0)

static bool same(const void *a, const void *b, unsigned size) {
    const uint8_t *x = a, *y = b;
    while (size--) {
        if (*x++ != *y++) return false;
    }
    return true;
}

/* Opens the chip with these bytes at 000. */
static void opens(const uint8_t *bytes, unsigned count, uint8_t fill) {
    for (unsigned at = 0; at < sizeof program.bytes; at++) program.bytes[at] = at < count ? bytes[at] : 0;
    kbd48_chip_open(&chip, &program, fill);
}
#define OPENS(fill, ...) do { const uint8_t code[] = {__VA_ARGS__}; opens(code, sizeof code, fill); } while (0)

/* Steps the chip so often with these levels; the last answer. */
static int32_t steps(unsigned count, uint32_t levels) {
    int32_t answer = 0;
    while (count--) answer = kbd48_chip_step(&chip, levels);
    return answer;
}

/* Each field by its name against the bytes of a save, whose order is proved. Every byte of the save is another one. */
static const char *fields(void) {
    static const uint8_t state[19] = {0x21, 0x0e, 0x43, 0xad, 0, 0, 0x65, 0x17, 0, 2, 0, 0, 0, 0, 0xe1, 0xe2, 0xe3, 0, 0};
    static const uint8_t truths[9] = {4, 5, 8, 10, 11, 12, 13, 17, 18};
    OPENS(0, 0xa5);
    for (unsigned at = 0; at < 9; at++) {
        for (unsigned i = 0; i < 19; i++) saved.processor[i] = state[i];
        for (unsigned i = 0; i < 128; i++) saved.ram[i] = (uint8_t)(255 - i);
        saved.processor[truths[at]] = 1;
        CHECK(kbd48_chip_load(&chip, &saved) == 1);
        CHECK(chip.program[0] == 0xa5 && chip.program[1] == 0 && chip.pc == 0xe21 && chip.a == 0x43 && chip.psw == 0xad);
        CHECK(chip.t == 0x65 && chip.pre == 0x17 && chip.counts == 2 && chip.p1 == 0xe1 && chip.p2 == 0xe2 && chip.bus == 0xe3);
        CHECK(chip.ram[0] == 255 && chip.ram[1] == 254 && chip.ram[127] == 128);
        const bool found[9] = {chip.f1, chip.mb, chip.tf, chip.external_on, chip.timer_on, chip.request, chip.service,
                               chip.clock_output, chip.last_t1};
        for (unsigned i = 0; i < 9; i++) CHECK(found[i] == (i == at));
        kbd48_chip_save(&chip, &again);
        CHECK(same(&saved, &again, sizeof saved));
    }
    return 0;
}

/* A state that no processor has is refused, and nothing changes. */
static const char *refusals(void) {
    static const struct {
        uint8_t at, byte;
        bool is_taken;
    } states[] = {{1, 0x0f, true}, {1, 0x10, false}, {7, 0x1f, true}, {7, 0x20, false}, {3, 0xff, true}, {3, 0xf7, false}, {3, 0x0a, true}};
    OPENS(0x5a, 0x00);
    kbd48_chip_save(&chip, &saved);
    for (unsigned i = 0; i < sizeof states / sizeof *states; i++) {
        again = saved;
        again.processor[states[i].at] = states[i].byte;
        other = chip;
        CHECK(kbd48_chip_load(&chip, &again) == states[i].is_taken);
        CHECK(same(&chip, &other, sizeof chip) == !states[i].is_taken);
        CHECK(kbd48_chip_load(&chip, &saved) == 1 && same(&chip, &other, sizeof chip));
    }
    return 0;
}

static const char *power(void) {
    OPENS(0x77, 0x23, 0x12, 0x39, 0x62, 0x55); /* MOV A,#12; OUTL P1,A; MOV T,A; STRT T */
    CHECK(chip.a == 0x77 && chip.t == 0x77 && chip.ram[0] == 0x77 && chip.ram[127] == 0x77 && chip.psw == 8 && chip.pc == 0);
    CHECK(chip.p1 == 0xff && chip.p2 == 0xff && chip.bus == 0xff && chip.last_t1 && !chip.external_on && chip.counts == 0);
    CHECK(chip.program[0] == 0x23 && chip.program[4] == 0x55 && chip.program[2047] == 0);
    steps(4, KBD48_PINS_HIGH);
    CHECK(chip.p1 == 0x12 && chip.t == 0x12 && chip.counts == 1 && chip.pc == 5);
    kbd48_chip_reset(&chip);
    CHECK(chip.pc == 0 && chip.p1 == 0xff && chip.counts == 0 && chip.a == 0x12 && chip.t == 0x12 && chip.ram[5] == 0x77);
    return 0;
}

/* Each pin and each latch has its own place in the numbers. */
static const char *pins(void) {
    OPENS(0, 0x08, 0xa8, 0x09, 0xa9, 0x0a, 0xaa); /* INS A,BUS; MOV R0,A; IN A,P1; MOV R1,A; IN A,P2; MOV R2,A */
    steps(6, 0x00332211);
    CHECK(chip.ram[0] == 0x11 && chip.ram[1] == 0x22 && chip.ram[2] == 0x33);
    for (unsigned high = 0; high < 2; high++) {
        OPENS(0, 0x36, 0x10); /* JT0 10 */
        steps(1, high ? 0x1000000u : ~0x1000000u);
        CHECK(chip.pc == (high ? 0x10 : 2));
        OPENS(0, 0x56, 0x10); /* JT1 10 */
        steps(1, high ? 0x2000000u : ~0x2000000u);
        CHECK(chip.pc == (high ? 0x10 : 2));
        OPENS(0, 0x86, 0x10); /* JNI 10 */
        steps(1, high ? 0x4000000u : ~0x4000000u);
        CHECK(chip.pc == (high ? 2 : 0x10));
    }
    OPENS(0, 0x23, 0x12, 0x02, 0x03, 0x22, 0x39, 0x03, 0x22, 0x3a); /* MOV A,#12; OUTL BUS,A; ADD A,#22; OUTL P1,A; ADD; OUTL P2,A */
    int32_t answer = steps(6, KBD48_PINS_HIGH);
    CHECK(KBD48_BUS(answer) == 0x12 && KBD48_P1(answer) == 0x34 && KBD48_P2(answer) == 0x56 && KBD48_CYCLES(answer) == 2);
    OPENS(0, 0x00); /* NOP */
    CHECK(KBD48_CYCLES(steps(1, KBD48_PINS_HIGH)) == 1 && KBD48_BOARD_PINS(0x5a, 1, 0) == 0x05ffff5au);
    return 0;
}

static const char *interrupts(void) {
    OPENS(0, 0x05, 0x00); /* EN I; NOP */
    steps(1, KBD48_PINS_HIGH);
    CHECK(KBD48_CYCLES(steps(1, KBD48_PINS_HIGH & ~0x4000000u)) == 2 && chip.pc == 3 && chip.service && chip.ram[8] == 1);
    OPENS(0xff, 0x25, 0x45, 0x04, 0x02); /* EN TCNTI; STRT CNT; JMP 002; T is FF: a fall of T1 overflows it */
    steps(2, KBD48_PINS_HIGH);
    steps(1, KBD48_PINS_HIGH & ~0x2000000u);
    CHECK(chip.tf && chip.request && chip.t == 0);
    steps(1, KBD48_PINS_HIGH);
    CHECK(chip.pc == 7 && chip.service && !chip.request);
    return 0;
}

/* A byte that begins no instruction: no cycles, no change. */
static const char *stuck(void) {
    OPENS(0x10, 0x23, 0x7e, 0x01); /* MOV A,#7E; illegal */
    steps(1, KBD48_PINS_HIGH);
    other = chip;
    for (unsigned i = 0; i < 3; i++) CHECK(KBD48_CYCLES(kbd48_chip_step(&chip, i)) == 0 && same(&chip, &other, sizeof chip));
    CHECK(KBD48_P1(kbd48_chip_step(&chip, 0)) == 0xff);
    return 0;
}

/* A copy goes on as the original does. */
static const char *copies(void) {
    OPENS(1, 0x17, 0x39, 0x04, 0x00); /* INC A; OUTL P1,A; JMP 000 */
    for (unsigned i = 0; i < 300; i++) {
        other = chip;
        int32_t answer = kbd48_chip_step(&chip, i);
        CHECK(answer == kbd48_chip_step(&other, i) && same(&chip, &other, sizeof chip));
    }
    CHECK(chip.p1 == 101);
    return 0;
}

#ifdef VECTORS
static const uint8_t *cells(const uint8_t *at, uint8_t *ram) {
    for (unsigned i = 0; i < 128; i++) ram[i] = 0;
    for (unsigned count = *at++; count--; at += 2) ram[at[0]] = at[1];
    return at;
}

/* Single steps: the state after it, but for the clock output, which the vectors don't have. */
static const char *singles(void) {
    const uint8_t *at = vectors;
    for (unsigned number = 0; number < VECTOR_COUNT; number++) {
        for (unsigned i = 0; i < sizeof program.bytes; i++) program.bytes[i] = 0;
        for (unsigned count = *at++; count--; at += 3) program.bytes[at[0] | at[1] << 8] = at[2];
        const uint32_t levels = at[0] | at[1] << 8 | (uint32_t)at[2] << 16 | (uint32_t)at[3] << 24;
        at += 4;
        for (unsigned i = 0; i < 19; i++) saved.processor[i] = *at++;
        at = cells(at, saved.ram);
        kbd48_chip_open(&chip, &program, 0xee);
        CHECK(kbd48_chip_load(&chip, &saved) == 1);
        const int32_t answer = kbd48_chip_step(&chip, levels);
        kbd48_chip_save(&chip, &again);
        for (unsigned i = 0; i < 19; i++) saved.processor[i] = *at++;
        at = cells(at, saved.ram);
        again.processor[17] = saved.processor[17];
        CHECK(same(&saved, &again, sizeof saved));
        CHECK(KBD48_CYCLES(answer) == *at++ && KBD48_P1(answer) == again.processor[14] && KBD48_P2(answer) == again.processor[15]);
        CHECK(KBD48_BUS(answer) == again.processor[16]);
    }
    return at == vectors + sizeof vectors ? 0 : "c/chip.c: the vectors have another length";
}
#endif

/* What failed first, or a null pointer. */
const char *chip_failed(void) {
    static const char *(*const tests[])(void) = {fields, refusals, power, pins, interrupts, stuck, copies,
#ifdef VECTORS
        singles,
#endif
    };
    for (unsigned i = 0; i < sizeof tests / sizeof *tests; i++) {
        const char *failed = tests[i]();
        if (failed) return failed;
    }
    return 0;
}

#if __STDC_HOSTED__
#include <stdio.h>

int main(void) {
    const char *failed = chip_failed();
    puts(failed ? failed : "c/chip.c: all as it should be");
    return failed != 0;
}
#endif
