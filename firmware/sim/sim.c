/* The simulated board: pins, matrix and time. The PC is pc.c. */
#include "hal.h"
#include "pc.h"
#include "semihost.h"

volatile __typeof__(sim_pins) sim_pins;
extern int32_t most_late;
extern uint32_t slips;

static uint32_t cycle, fed, random_state;
static uint8_t matrix[12];
static unsigned next_edge; /* of the keys; the PC has its own place in the script */

#ifdef ROWS_A
WORLD static bool is_low(uint32_t a, uint32_t b) { return (~sim_pins.out[0] & a) | (~sim_pins.out[1] & b); }
WORLD static void start_pins(void) {
    sim_pins.out[0] = ~LIGHTS_A, sim_pins.out[1] = ~LIGHTS_B, sim_pins.out[2] = LATE_C;
}
WORLD static void levels(uint8_t rows, bool clock, bool data) {
    sim_pins.in[0] = (ROWS_A ? (uint32_t)rows << ROW_0 : 0) | (clock ? CLOCK_A : 0) | (data ? DATA_A : 0);
    sim_pins.in[1] = (ROWS_B ? (uint32_t)rows << ROW_0 : 0) | (clock ? CLOCK_B : 0) | (data ? DATA_B : 0);
}
#define PULLED(name) is_low(name##_A, name##_B)
#define LIT(name) (!is_low(name##_A, name##_B))
#else
WORLD static bool is_low(uint32_t pin) { return sim_pins.drives & ~sim_pins.out & pin; }
WORLD static void start_pins(void) { sim_pins.drives = LIGHTS | LATE; }
WORLD static void levels(uint8_t rows, bool clock, bool data) {
    sim_pins.in = (uint32_t)rows << ROW_0 | (clock ? CLOCK : 0) | (data ? DATA : 0);
}
#define PULLED(name) is_low(name)
#define LIT(name) (sim_pins.drives & sim_pins.out & name)
#endif

/* The rows of the columns that are pulled, by diodes. */
WORLD static uint8_t rows_now(void) {
#ifdef ROWS_A
    static const uint16_t a[16] = COLUMN_A, b[16] = COLUMN_B;
#else
    static const uint32_t column[16] = COLUMN;
#endif
    uint8_t low = 0;
    for (unsigned n = 0; n < 12; n++) {
#ifdef ROWS_A
        if (matrix[n] && is_low(a[n], b[n])) low |= matrix[n];
#else
        if (matrix[n] && is_low(column[n])) low |= matrix[n];
#endif
    }
    return (uint8_t)~low;
}

WORLD static void type(void) {
    for (; script.events[next_edge].what != NO_EVENT && cycle >= script.events[next_edge].at + POWER_ON; next_edge++) {
        if (script.events[next_edge].what != KEY) continue;
        uint8_t at = script.events[next_edge].a, bit = (uint8_t)(1 << at % 8);
        if (script.events[next_edge].b) matrix[at / 8] |= bit; else matrix[at / 8] &= (uint8_t)~bit;
    }
}

WORLD static void finish_at_end(void) {
    if (cycle != script.end + POWER_ON) return;
    put("slips "), put_number(slips), put(" late ");
    put_number(most_late > 0 ? (uint32_t)most_late / (script.cycle / 16) : 0); /* in sixteenths of a cycle */
    put("\n");
    finish(0);
}

/* A cycle passes, with the latches as they are. */
WORLD static void pass(void) {
    pc_cycle(cycle++, !PULLED(CLOCK), !PULLED(DATA), (LIT(SCROLL) ? 1 : 0) | (LIT(NUM) ? 2 : 0) | (LIT(CAPS) ? 4 : 0));
    type();
    if (cycle - fed > 40000) {
        put("the watchdog resets\n");
        finish(1);
    }
    finish_at_end();
}

WORLD static uint32_t drawn(void) { return random_state = random_state * 1664525 + 1013904223; }

WORLD static void stall(void) {
    if (!script.stall_in || (drawn() >> 16) % script.stall_in) return;
    for (uint32_t k = (drawn() >> 16) % script.stall_most + 1; k; k--) pass();
}

#ifdef COST
volatile uint32_t sim_counter;
/* Places for the plugin: a step of one or two cycles has ended; the program asks for the time a second time after a look, and
   again, because it only waits. */
WORLD void mark_one(void) { __asm__ volatile("nop" ::: "memory"); }
WORLD void mark_two(void) { __asm__ volatile("nop\n nop" ::: "memory"); }
WORLD void mark_asked(void) { __asm__ volatile("nop\n nop\n nop" ::: "memory"); }
WORLD void mark_waited(void) { __asm__ volatile("nop\n nop\n nop\n nop" ::: "memory"); }
static unsigned questions; /* since the last look */
WORLD static void begin_look(void) { questions = 0; }
WORLD uint32_t sim_now(void) {
    if (questions) pass();
    if (questions == 1) mark_asked(); else if (questions) mark_waited();
    questions++;
    sim_counter = ~(cycle * HAL_CYCLE + 255) >> 8; /* half a count is rounded up: what is due has come */
    return 0;
}
WORLD static void account(void) {
    static uint32_t last;
    if (cycle - last == 1) mark_one(); else mark_two();
    last = cycle;
}
#else
static bool looked = true; /* and no time has passed since */
/* SysTick counts down. What it counts while the PC is simulated is left out, and so is what it counts for a question alone; of a
   question in a loop that waits, half, so that time goes on. */
static uint32_t left_at, gone, question, now, passed;
WORLD static uint32_t ticks(void) { return 0xFFFFFF - *(volatile uint32_t *)0xE000E018; }
WORLD static uint32_t paced_now(void) {
    gone = (ticks() - left_at) & 0xFFFFFF;
    uint32_t free = looked ? question : question / 2;
    if (gone > free) now += (gone - free) << 8;
    looked = false;
    for (; now - passed >= script.cycle; passed += script.cycle) pass();
    left_at = ticks();
    return now;
}
WORLD static void start_ticks(void) {
    *(volatile uint32_t *)0xE000E014 = 0xFFFFFF;
    *(volatile uint32_t *)0xE000E018 = 0;
    *(volatile uint32_t *)0xE000E010 = 5;
    left_at = ticks();
    uint32_t least = 0xFFFFFF;
    for (unsigned k = 0; k < 64; k++) {
        passed = now;
        (void)hal_now();
        if (k > 1 && gone < least) least = gone;
    }
    question = least;
    passed = now;
}
/* After a look the next question passes no time, so that a step of one cycle, which asks twice, takes one. */
WORLD uint32_t sim_now(void) {
    if (script.flags & PACED) return paced_now();
    if (!looked) {
        pass();
    } else {
        looked = false;
        stall();
    }
    return cycle * script.cycle;
}
WORLD static void begin_look(void) {
    looked = true;
    if (script.flags & PACED) (void)paced_now();
    looked = true;
}
#define account() (left_at = ticks())
#endif

/* The program looks at its pins. */
WORLD void sim_look(void) {
    begin_look();
    bool clock = !PULLED(CLOCK) && !pc_pulls_clock(), data = !PULLED(DATA) && !pc_pulls_data();
    levels(rows_now(), clock, data);
    if (script.flags & WIRES) pc_trace(cycle, clock, data);
    stall(); /* between the look and what is written after it */
    account();
}

WORLD void sim_feed(void) { fed = cycle; }

#ifdef COST
/* The exception's number is in the instruction before the place to which it returns. */
WORLD __attribute__((used)) void sim_enter(const uint32_t *frame) {
    if (((const uint8_t *)frame[6])[-2] == NOW) (void)sim_now(); else sim_look();
}
WORLD __attribute__((naked)) static void entered(void) { __asm__("mov r0, sp\n ldr r1, =sim_enter\n bx r1"); }
WORLD static void start(void) {
    static uint32_t vectors[16] __attribute__((aligned(128)));
    volatile uint32_t *at = (volatile uint32_t *)0xE000ED08;
    for (unsigned k = 0; k < 16; k++) vectors[k] = ((const volatile uint32_t *)*at)[k];
    vectors[11] = (uint32_t)entered;
    *at = (uint32_t)vectors;
}
#else
WORLD static void start(void) {
    if (script.flags & PACED) start_ticks();
}
#endif

WORLD void hal_start(void) {
    start_pins();
    random_state = script.stall_seed;
    type();
    start();
}
