/* The PC beside the keyboard: its controller, the link, and the host; cycle by cycle, as docs/PROFILE.md has it. */
#ifndef PC_H
#define PC_H
#include <stdbool.h>
#include <stdint.h>

enum { POWER_ON = 4096 }; /* the cycle of stamp 0 */

/* A cycle, with what the keyboard lets go, and its lights. */
void pc_cycle(uint32_t cycle, bool clock, bool data, uint8_t lights);
bool pc_pulls_clock(void);
bool pc_pulls_data(void);
/* The wires at a look of the keyboard, as a value change dump. */
void pc_trace(uint32_t cycle, bool clock, bool data);
#endif
