/* A keyboard for the PC/AT on a chip of today: the 8049's program runs on the proved 8049 (kbd48_chip.h), and the pins of that
   8049 are pins of this chip. hal.h says what a board gives. Each step samples the pins first and writes them last. */
#include "hal.h"
#include "image.h"
#include "kbd48_chip.h"

/* By how much a step may end late before the rest isn't made up for: eight cycles, 20 microseconds. */
#define MOST_LATE (8 * (int32_t)HAL_CYCLE)
/* How long a wire that was let go may rise before a step looks at it, even when steps are late: 3.5 microseconds. */
#define RISE (7 * HAL_CYCLE / 5)

/* The bits of an answer that pins show: the column, the two wires, the lights. */
enum { COLUMN_BITS = 0x000F00, WIRE_BITS = 0x030000, LIGHT_BITS = 0x700000 };

static kbd48_chip chip = KBD48_NO_CHIP;
/* For a debugger and the tests: how late a step ended at most, and how often time was given up. */
int32_t most_late;
uint32_t slips;

/* Puts what changed of the latches on to the pins. When the next look may come: when it is due, but not before a wire that is let
   go could rise. The watchdog begins anew with each column, which the image of a layout selects in each tick. */
__attribute__((noinline)) static uint32_t show(uint32_t turned, uint32_t is, uint32_t due) {
    if (turned & WIRE_BITS) hal_wires(KBD48_P2(is) & 1, KBD48_P2(is) >> 1 & 1);
    if (turned & LIGHT_BITS) hal_lights(~KBD48_P2(is) >> 4 & 7);
    if (turned & COLUMN_BITS) {
        hal_column(KBD48_P1(is) & 15);
        hal_feed();
        hal_late(slips);
    }
    if (!(turned & is & WIRE_BITS)) return due;
    uint32_t risen = hal_now() + RISE;
    return (int32_t)(risen - due) > 0 ? risen : due;
}

/* A step ended no earlier than it was due. If it ended late, the light says so. When it was due, or now, if it is too late to make up
   for it. */
__attribute__((noinline)) static uint32_t was_late(uint32_t due, uint32_t now) {
    int32_t late = (int32_t)(now - due);
    if (late <= 0) return due;
    hal_late(true);
    if (late > most_late) most_late = late;
    if (late <= MOST_LATE) return due;
    slips++;
    return now;
}

/* The watchdog resets. A law says that the processor is never stuck with the image of a layout. */
__attribute__((noreturn)) static void stuck(void) { for (;;) {} }

int main(void) {
    hal_start();
    kbd48_chip_open(&chip, &image.program, 0);
    const bool is_own = !image.is_kernel;
    kbd48_chip *at = &chip; /* kbd48_chip_step would write it anew in each step */
    uint32_t was = KBD48_PINS_HIGH, due = hal_now();
    for (;;) {
        hal_pins pins = hal_read();
        uint32_t is = (uint32_t)kbd48_chip_step_at(&at, KBD48_BOARD_PINS(hal_rows(pins), 0, 0) | hal_wire_levels(pins));
        uint32_t turned = (was ^ is) & (COLUMN_BITS | WIRE_BITS | LIGHT_BITS);
        was = is;
        if (KBD48_CYCLES(is) == 2) due += 2 * HAL_CYCLE;
        else if (KBD48_CYCLES(is) == 1) due += HAL_CYCLE;
        else stuck();
        uint32_t next = turned ? show(turned, is, due) : due;
        if (is_own) hal_feed();
        uint32_t now = hal_now();
        if ((int32_t)(now - next) < 0) while ((int32_t)(hal_now() - next) < 0) {}
        else due = was_late(due, now);
    }
}
