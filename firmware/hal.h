/* What a board gives. Its HAL has, as inline functions:

   hal_start()               clocks, pins, counter and watchdog, before anything else
   hal_read()                the levels of all pins at once, of which the next two give
   hal_rows(pins)            the rows of the selected column: bit k for row k, 0 for a key that is down
   hal_wire_levels(pins)     the levels of the two wires, as KBD48_BOARD_PINS has them: bit 24 the clock, bit 25 data
   hal_column(n)             pulls column n low and lets the others go; 12 to 15 pull none
   hal_wires(clock, data)    lets each wire go, or pulls it low
   hal_lights(lit)           lights: 1 Scroll, 2 Num, 4 Caps
   hal_late(on)              the light that shows lateness
   hal_feed()                the watchdog begins anew; it resets the chip after some 100 ms without
   hal_now()                 a counter that runs freely, modulo 2 to the 32nd
   HAL_CYCLE                 by how much it goes on in a cycle of 2.5 microseconds

   pins.h is made of the board's table, boards/NAME.txt. */
#ifndef HAL_H
#define HAL_H
#include <stdbool.h>
#include <stdint.h>

#include "pins.h"

#ifdef HAL_SIM /* a board, a PC and time that are simulated: sim/ */
#include "sim.h"
#else
#ifndef REG /* sim/registers.c has registers of its own */
#define REG(at) (*(volatile uint32_t *)(at))
#endif
/* SysTick counts down 24 bits of the processor's clock. Here they are the upper 24 of 32, and count up. */
#define HAL_CYCLE (BOARD_CLOCK_MHZ * 640u)
static inline void systick_start(void) {
    REG(0xE000E014) = 0xFFFFFF;
    REG(0xE000E018) = 0;
    REG(0xE000E010) = 5;
}
static inline uint32_t hal_now(void) { return ~REG(0xE000E018) << 8; }
#endif

#include HAL
#endif
