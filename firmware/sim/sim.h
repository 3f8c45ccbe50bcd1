/* A board that is simulated, for QEMU: its pins are words in memory, and a PC and somebody who types are joined to them. The pins
   are used by the HAL of the board itself; only start, counter and watchdog are this one's.

   Time is the PC's, in one of three ways. By steps: a cycle passes whenever the program looks whether it is time, so all is as in
   `kbd48 board`. Paced: by SysTick, which doesn't count while the PC is simulated. COST: by steps, for the plugin that counts
   clocks; then pins and counter are plain memory, and the simulation is entered by an exception, so the program is compiled as it
   is for its board. */
#ifndef SIM_H
#define SIM_H

#define WORLD __attribute__((section(".world"), noinline)) /* what isn't the program's: not counted, and takes no time */

void hal_start(void);
uint32_t sim_now(void);
void sim_feed(void);
void sim_look(void);
#ifdef COST
enum { LOOK, NOW };
#define ENTER(number) __asm__ volatile("svc %0" : : "i"(number))
#define LOOK_AT_PINS() ENTER(LOOK)
#else
#define LOOK_AT_PINS() sim_look()
#endif

#ifdef ROWS_A
extern volatile struct { uint32_t in[3], out[3]; } sim_pins;
static inline uint32_t PORT_IN(unsigned n) { if (n == 0) LOOK_AT_PINS(); return sim_pins.in[n]; }
#define PORT_PUT(n, set, clear) (sim_pins.out[n] = (sim_pins.out[n] | (set)) & ~(uint32_t)(clear))
#else
extern volatile struct { uint32_t in, out, drives; } sim_pins;
static inline uint32_t PINS_IN(void) { LOOK_AT_PINS(); return sim_pins.in; }
#define PINS_SET(m) (sim_pins.out |= (m))
#define PINS_CLEAR(m) (sim_pins.out &= ~(uint32_t)(m))
#define PINS_DRIVE(m) (sim_pins.drives |= (m))
#define PINS_RELEASE(m) (sim_pins.drives &= ~(uint32_t)(m))
#endif

#ifdef COST
#define HAL_CYCLE (BOARD_CLOCK_MHZ * 640u)
extern volatile uint32_t sim_counter; /* it counts down, as SysTick does */
static inline uint32_t hal_now(void) {
    ENTER(NOW);
    return ~sim_counter << 8;
}
#else
#define HAL_CYCLE (script.cycle)
static inline uint32_t hal_now(void) { return sim_now(); }
#endif
static inline void hal_feed(void) { sim_feed(); }

/* What is asked for, which QEMU loads behind the program. */
enum { WIRES = 1, PACED = 2 };
enum { KEY, WRITE60, WRITE64, READ60, MASK, UNMASK, STATUS, FLIP, TAKE, NO_EVENT };
typedef struct {
    uint32_t flags;                            /* WIRES: print the wires, too */
    uint32_t cycle;                            /* a cycle on the program's counter */
    uint32_t end;                              /* the stamp of the end */
    uint32_t stall_in, stall_most, stall_seed; /* one place of so many is held up by 1 to so many cycles; 0: none */
    uint8_t scan_of[256];                      /* the scan code of each code of a key, or 0 */
    struct { uint32_t at; uint8_t what, a, b, none; } events[];
} sim_script;
extern const sim_script script;
#endif
