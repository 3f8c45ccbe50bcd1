/* The clocks and pins of a Pico at power-on. The registers are the RP2040's data sheet's, from memory. */
#include "hal.h"

enum { SET = 0x2000, CLEAR = 0x3000 }; /* each register again, where a write sets or clears its bits */
#define PSM 0x40010000u
#define RESETS 0x4000C000u
#define CLOCKS 0x40008000u
#define XOSC 0x40024000u
#define PLL 0x40028000u
#define IO 0x40014000u
#define PADS 0x4001C000u
#define WATCHDOG 0x40058000u
enum { IO_BANK = 1 << 5, PADS_BANK = 1 << 8, PLL_SYS = 1 << 12 };

static void out_of_reset(uint32_t parts) {
    REG(RESETS + CLEAR) = parts;
    while (~REG(RESETS + 8) & parts) {}
}

static void start_clocks(void) {
    REG(XOSC + 0x0C) = 47;             /* 1 ms of the crystal of 12 MHz */
    REG(XOSC) = 0xFABAA0;
    while (!(REG(XOSC + 4) >> 31)) {}
    REG(CLOCKS + 0x30) = 2;            /* the reference is the crystal */
    while (!(REG(CLOCKS + 0x38) & 4)) {}
    REG(CLOCKS + CLEAR + 0x3C) = 1;    /* the system has the reference's clock while the PLL starts */
    while (!(REG(CLOCKS + 0x44) & 1)) {}
    REG(RESETS + SET) = PLL_SYS;
    out_of_reset(PLL_SYS);
    REG(PLL) = 1;
    REG(PLL + 8) = BOARD_CLOCK_MHZ;    /* 12 MHz * 125 is 1,500 MHz; divided by 6 and by 2, 125 MHz */
    REG(PLL + CLEAR + 4) = 1 | 1 << 5;
    while (!(REG(PLL) >> 31)) {}
    REG(PLL + 0x0C) = 6 << 16 | 2 << 12;
    REG(PLL + CLEAR + 4) = 1 << 3;
    REG(CLOCKS + 0x3C) = 0;            /* auxiliary source: the PLL */
    REG(CLOCKS + SET + 0x3C) = 1;
    while (!(REG(CLOCKS + 0x44) & 2)) {}
}

void hal_start(void) {
    start_clocks();
    REG(WATCHDOG + 0x2C) = 1 << 9 | 12; /* a microsecond is 12 of the reference */
    REG(PSM + 8) = 0x1FFFC;             /* it resets all but the oscillators */
    hal_feed();
    REG(WATCHDOG + SET) = 1 << 30;
    out_of_reset(IO_BANK | PADS_BANK);
    PINS_RELEASE(~0u);
    PINS_CLEAR(~0u);
    for (unsigned n = 0; n < 30; n++) {
        uint32_t pin = 1u << n;
        if (!(USED & pin)) continue;
        uint32_t kind = ROWS & pin ? 1u << 3 : (CLOCK | DATA) & pin ? 3u << 4 : 1u << 4; /* a pull-up; 12 mA; 4 mA */
        REG(PADS + 4 + 4 * n) = 1u << 6 | kind | 1u << 1; /* input, Schmitt trigger */
        REG(IO + 8 * n + 4) = 5;                          /* the pin is the processor's */
    }
    PINS_DRIVE(LIGHTS | LATE);
    systick_start();
}
