/* A proved processor of the MCS-48, the 8049 of the MCS-48 Family User's Manual, for a chip with pins of its own or for an
   emulator of any machine that has one: 2,048 bytes of program, 128 of data, timer and counter, two interrupts, two ports and
   the bus. `docs/EMBEDDING.md` has a section on it. The archive is made of the proved crate kbd48_chip, by `c/build --chip`
   or, for microcontrollers, by `c/cross`.

   A chip is a plain struct of yours, without a pointer: copy it by assignment to go back to it. There is no heap, and no call
   keeps anything elsewhere.

   One call makes one step of the processor: an instruction, or the entry of an interrupt. It takes the levels at the pins as
   they are when the step begins, and answers with the latches of the ports and the step's cycles. The caller puts the latches
   onto the pins; they hold from the step's first cycle on. Then the step's cycles pass, each of 15 periods of the clock: 2.5
   microseconds at 6 MHz.

   The caller ensures that a chip begins as KBD48_NO_CHIP, is written by these calls or by assignment of another chip alone,
   and is in one call at a time. Any of its fields may be read between calls. */
#ifndef KBD48_CHIP_H
#define KBD48_CHIP_H
#include <stdbool.h>
#include <stdint.h>

#ifdef __cplusplus
extern "C" {
#endif

/* A processor with its program. */
typedef struct {
    uint8_t program[2048];
    uint16_t pc;                     /* the program counter, 12 bits; the low 11 are the place of the next instruction */
    uint8_t a;                       /* the accumulator */
    uint8_t psw;                     /* bit 7 carry, 6 half carry, 5 flag 0, 4 bank, 3 always 1, 2 to 0 stack pointer */
    bool f1, mb;                     /* flag 1, and bit 11 of the next JMP or CALL */
    uint8_t ram[128];                /* 0 to 7 are the registers of bank 0, 8 to 23 the stack, 24 to 31 those of bank 1 */
    uint8_t t, pre;                  /* the timer, and its prescaler, 0 to 31 */
    bool tf;                         /* the timer flag */
    uint8_t counts;                  /* what the timer counts: 0 nothing, 1 machine cycles, 2 falls of T1 */
    bool external_on, timer_on;      /* the two interrupts are enabled */
    bool request, service;           /* a timer request is latched, and an interrupt is in service */
    uint8_t p1, p2, bus;             /* the output latches */
    bool clock_output, last_t1;      /* the clock output was enabled, and the level of T1 at the last step */
} kbd48_chip;
#define KBD48_NO_CHIP {{0}, 0, 0, 8, 0, 0, {0}, 0, 0, 0, 0, 0, 0, 0, 0, 255, 255, 255, 0, 1}

typedef struct {
    uint8_t bytes[2048];
} kbd48_program;

/* The levels at the pins, 1 for high: the bus in bits 0 to 7, port 1 in 8 to 15, port 2 in 16 to 23, T0, T1 and INT in 24, 25
   and 26. A port is read as latch AND pin, the bus as its pins. There is no port expander: it reads F. */
#define KBD48_PINS_HIGH 0x07ffffffu
/* The same on this keyboard's board: the bus has the rows, T0 the clock, T1 the data wire; nobody pulls another pin. */
#define KBD48_BOARD_PINS(rows, clock, data) \
    (0x04ffff00u | (uint32_t)(rows) | (uint32_t)(clock) << 24 | (uint32_t)(data) << 25)

/* What a step answers: the latch of the bus in bits 0 to 7, of port 1 in 8 to 15, of port 2 in 16 to 23, and above them the
   step's cycles: 1 or 2. They are 0 if the byte at the program counter begins no instruction; then nothing has changed, and
   nothing will but by a reset or an interrupt. */
#define KBD48_BUS(answer) ((uint8_t)(answer))
#define KBD48_P1(answer) ((uint8_t)((uint32_t)(answer) >> 8))
#define KBD48_P2(answer) ((uint8_t)((uint32_t)(answer) >> 16))
#define KBD48_CYCLES(answer) ((uint32_t)(answer) >> 24)

/* The state but for the program, in one form for all machines: the processor's bytes as in a saved keyboard ("Saved bytes" of
   `docs/CALLS.md`), and data memory. */
typedef struct {
    uint8_t processor[19], ram[128];
} kbd48_chip_saved;

/* The exports. Each takes the place of a pointer to the chip, and leaves that pointer as it is. */
void kbd48_chip_open_at(kbd48_chip **chip, const kbd48_program *program, uint8_t fill);
void kbd48_chip_reset_at(kbd48_chip **chip);
int32_t kbd48_chip_step_at(kbd48_chip **chip, uint32_t levels);
void kbd48_chip_save_at(kbd48_chip **chip, kbd48_chip_saved *saved);
int32_t kbd48_chip_load_at(kbd48_chip **chip, const kbd48_chip_saved *saved);

/* Switches the chip off, and on with this program. Data memory, the accumulator and the timer hold the byte `fill` then; a
   real part may hold anything. */
static inline void kbd48_chip_open(kbd48_chip *chip, const kbd48_program *program, uint8_t fill) {
    kbd48_chip_open_at(&chip, program, fill);
}

/* Pulls the reset pin for a moment: the program begins at 0, both ports let go, interrupts and timer are off. Data memory,
   accumulator, timer, prescaler, both carries, a timer request and the latch of the bus stay. */
static inline void kbd48_chip_reset(kbd48_chip *chip) {
    kbd48_chip_reset_at(&chip);
}

/* One step with these levels at the pins. */
static inline int32_t kbd48_chip_step(kbd48_chip *chip, uint32_t levels) {
    return kbd48_chip_step_at(&chip, levels);
}

/* Writes the chip's state. */
static inline void kbd48_chip_save(kbd48_chip *chip, kbd48_chip_saved *saved) {
    kbd48_chip_save_at(&chip, saved);
}

/* Goes to this state; the program stays. Returns 1, or 0 if the program counter, the prescaler or the status byte is none
   that a processor has; then nothing has changed. Any other bytes are a state: of what is true or false, 1 alone is true. */
static inline int32_t kbd48_chip_load(kbd48_chip *chip, const kbd48_chip_saved *saved) {
    return kbd48_chip_load_at(&chip, saved);
}

#ifdef __cplusplus
}
#endif
#endif
