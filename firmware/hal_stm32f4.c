/* The clocks and pins of an STM32F401 or F411 at power-on: the crystal of 25 MHz, and 84 MHz of the PLL. */
#include "hal.h"

#define RCC 0x40023800u
#define FLASH_ACR REG(0x40023C00)

static void start_clocks(void) {
    REG(RCC) |= 1 << 16; /* the crystal */
    while (!(REG(RCC) & 1 << 17)) {}
    FLASH_ACR = 0x702;   /* two wait states, prefetch and both caches */
    REG(RCC + 4) = 7 << 24 | 1 << 22 | 1 << 16 | (BOARD_CLOCK_MHZ * 4) << 6 | 25; /* 1 MHz * 336, divided by 4 */
    REG(RCC + 8) = 4 << 10; /* APB1 has half of the clock */
    REG(RCC) |= 1 << 24;
    while (!(REG(RCC) & 1 << 25)) {}
    REG(RCC + 8) |= 2;
    while ((REG(RCC + 8) & 0xC) != 8) {}
    REG(RCC + 0x30) |= 7; /* ports A, B, C */
}

/* The value of a pin's two bits in a register that has two for each. */
static void set_pair(uint32_t at, unsigned n, uint32_t value) { REG(at) = (REG(at) & ~(3u << 2 * n)) | value << 2 * n; }

static void set_up(unsigned port, uint32_t rows, uint32_t open_drain, uint32_t lights) {
    PORT_PUT(port, open_drain, lights); /* a 1 lets an open drain go */
    REG(PORT(port) + 4) |= open_drain;
    for (unsigned n = 0; n < 16; n++) {
        uint32_t pin = 1u << n;
        if (!((rows | open_drain | lights) & pin)) continue;
        set_pair(PORT(port) + 0x0C, n, rows & pin ? 1 : 0); /* a pull-up */
        set_pair(PORT(port), n, rows & pin ? 0 : 1);        /* input, or output */
    }
}

void hal_start(void) {
    start_clocks();
    watchdog_start();
    set_up(0, ROWS_A, COLUMNS_A | CLOCK_A | DATA_A, LIGHTS_A);
    set_up(1, ROWS_B, COLUMNS_B | CLOCK_B | DATA_B, LIGHTS_B);
    set_up(2, 0, 0, LATE_C);
    hal_late(false);
    systick_start();
}
