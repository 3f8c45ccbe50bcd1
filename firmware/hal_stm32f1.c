/* The clocks and pins of an STM32F103 at power-on: the crystal of 8 MHz times 9. */
#include "hal.h"

#define RCC 0x40021000u
#define FLASH_ACR REG(0x40022000)
#define AFIO_MAPR REG(0x40010004)

static void start_clocks(void) {
    REG(RCC) |= 1 << 16; /* the crystal */
    while (!(REG(RCC) & 1 << 17)) {}
    FLASH_ACR = 0x12;    /* two wait states, prefetch */
    REG(RCC + 4) = (BOARD_CLOCK_MHZ / 8 - 2) << 18 | 1 << 16 | 4 << 8; /* the PLL from the crystal; APB1 has half of it */
    REG(RCC) |= 1 << 24;
    while (!(REG(RCC) & 1 << 25)) {}
    REG(RCC + 4) |= 2;
    while ((REG(RCC + 4) & 0xC) != 8) {}
    REG(RCC + 0x18) |= 0x1D; /* AFIO, ports A, B, C */
}

/* Each pin has four bits: 8 input with a pull, 6 open drain, 2 push and pull, slow ones. */
static void set_up(unsigned port, uint32_t rows, uint32_t open_drain, uint32_t lights) {
    PORT_PUT(port, rows | open_drain, lights); /* 1 is up for a pull, and lets an open drain go */
    for (unsigned n = 0; n < 16; n++) {
        uint32_t pin = 1u << n, mode = rows & pin ? 8 : open_drain & pin ? 6 : lights & pin ? 2 : 0, at = PORT(port) + n / 8 * 4;
        if (mode) REG(at) = (REG(at) & ~(15u << n % 8 * 4)) | mode << n % 8 * 4;
    }
}

void hal_start(void) {
    start_clocks();
    watchdog_start();
    AFIO_MAPR = 2 << 24; /* a debugger has its two pins alone; PA15, PB3 and PB4 are free */
    set_up(0, ROWS_A, COLUMNS_A | CLOCK_A | DATA_A, LIGHTS_A);
    set_up(1, ROWS_B, COLUMNS_B | CLOCK_B | DATA_B, LIGHTS_B);
    set_up(2, 0, 0, LATE_C);
    hal_late(false);
    systick_start();
}
