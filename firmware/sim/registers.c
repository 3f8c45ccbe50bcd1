/* Executes the start of a board's HAL on this machine, on a model of the registers that it touches: what is set, and in which order.
   The model was written from memory of the same data sheets, so it finds slips, and no error of memory. -DSTART="hal_pico.c" */
#include <stdint.h>
#include <stdio.h>
#include <stdlib.h>

static volatile uint32_t *touched(uint32_t at);
#define REG(at) (*touched(at))
#include START

static struct { uint32_t at; volatile uint32_t value; } cells[512];
static unsigned count;

static void wrong(const char *what, uint32_t value) {
    fprintf(stderr, "registers: %s: %#x\n", what, value);
    exit(1);
}

static void must(int holds, const char *what, uint32_t value) { if (!holds) wrong(what, value); }

static volatile uint32_t *cell(uint32_t at) {
    for (unsigned k = 0; k < count; k++) if (cells[k].at == at) return &cells[k].value;
    must(count < 512, "too many registers", at);
    cells[count].at = at;
    return &cells[count++].value;
}
#define GET(at) (*cell(at))

#ifndef ROWS_A
/* A register in which a write sets or clears bits of another one. */
static void moved(uint32_t from, uint32_t to, int sets) {
    if (sets) GET(to) |= GET(from); else GET(to) &= ~GET(from);
    GET(from) = 0;
}

static void begin(void) {
    GET(RESETS) = 0x01FFFFFF;
    GET(PLL + 4) = 0x2D;
}

/* What the accesses so far have changed. */
static void settle(void) {
    static const uint32_t known[] = {RESETS, CLOCKS + 0x3C, PLL + 4, WATCHDOG};
    for (unsigned k = 0; k < sizeof known / sizeof *known; k++) {
        moved(known[k] + SET, known[k], 1);
        moved(known[k] + CLEAR, known[k], 0);
    }
    moved(0xD0000014, 0xD0000010, 1), moved(0xD0000018, 0xD0000010, 0);
    moved(0xD0000024, 0xD0000020, 1), moved(0xD0000028, 0xD0000020, 0);
    GET(RESETS + 8) = ~GET(RESETS);
    GET(XOSC + 4) = GET(XOSC) == 0xFABAA0 && GET(XOSC + 0x0C) ? 1u << 31 : 0;
    if (!(GET(PLL + 4) & 0x21) && GET(PLL + 8)) GET(PLL) |= 1u << 31;
    GET(CLOCKS + 0x38) = 1u << (GET(CLOCKS + 0x30) & 3);
    GET(CLOCKS + 0x44) = 1u << (GET(CLOCKS + 0x3C) & 1);
}

static void judge_access(uint32_t at) {
    uint32_t block = at & 0xFFFFC000;
    must(block != PLL || GET(RESETS + 8) & PLL_SYS, "the PLL is touched in reset", at);
    must(block != IO || GET(RESETS + 8) & IO_BANK, "the pins are touched in reset", at);
    must(block != PADS || GET(RESETS + 8) & PADS_BANK, "the pads are touched in reset", at);
}

static void judge(void) {
    uint32_t vco = 12 * GET(PLL + 8) / (GET(PLL) & 63), post = GET(PLL + 12), rate = vco / (post >> 16 & 7) / (post >> 12 & 7);
    must(vco >= 750 && vco <= 1600, "the PLL's rate in MHz", vco);
    must(GET(CLOCKS + 0x44) == 2 && (GET(CLOCKS + 0x3C) >> 5 & 7) == 0 && !(GET(PLL + 4) & 0x29) && rate == BOARD_CLOCK_MHZ, "MHz", rate);
    must(GET(CLOCKS + 0x38) == 4, "the reference isn't the crystal", GET(CLOCKS + 0x38));
    must(GET(WATCHDOG) >> 30 == 1 && GET(WATCHDOG + 0x2C) == (1 << 9 | 12) && GET(WATCHDOG + 4) == 200000, "watchdog", GET(WATCHDOG));
    must(!(GET(PSM + 8) & 3) && GET(PSM + 8) >> 15 & 1, "what the watchdog resets", GET(PSM + 8));
    for (unsigned n = 0; n < 30; n++) {
        uint32_t pin = 1u << n, pad = GET(PADS + 4 + 4 * n);
        int used = !!(USED & pin);
        must(GET(IO + 8 * n + 4) == (used ? 5u : 0u), "the function of a pin", n);
        must(!used || (pad & 1 << 6 && !(pad & 0x84)), "a pad without input, or pulled down, or off", n);
        must(!used || (pad >> 3 & 1) == !!(ROWS & pin), "a pad's pull-up", n);
    }
    must(GET(0xD0000020) == (LIGHTS | LATE) && GET(0xD0000010) == 0, "the pins that are driven", GET(0xD0000020));
}
#else
#define IS_F1 (GPIO_PUT == 0x10)
static uint32_t odr(unsigned n) { return PORT(n) + (IS_F1 ? 0x0C : 0x14); }
#define ENABLES (RCC + (IS_F1 ? 0x18 : 0x30))
#define CFGR (RCC + (IS_F1 ? 4 : 8))

static void begin(void) {
    for (unsigned n = 0; n < 3; n++) {
        if (IS_F1) GET(PORT(n)) = GET(PORT(n) + 4) = 0x44444444;
        else GET(PORT(n)) = n == 0 ? 0xA8000000 : n == 1 ? 0x280 : 0; /* the debugger's pins */
    }
}

static void settle(void) {
    GET(RCC) = (GET(RCC) & ~0x02020000u) | (GET(RCC) & 0x01010000) << 1;
    GET(CFGR) = (GET(CFGR) & ~0xCu) | (GET(CFGR) & 3) << 2;
    for (unsigned n = 0; n < 3; n++) {
        uint32_t put = GET(PORT(n) + GPIO_PUT);
        GET(odr(n)) = (GET(odr(n)) & ~(put >> 16)) | (put & 0xFFFF);
        GET(PORT(n) + GPIO_PUT) = 0;
    }
}

static void judge_access(uint32_t at) {
    unsigned port = (at - GPIO) / GPIO_SIZE;
    int is_on = at < GPIO || port > 2 || GET(ENABLES) >> (port + (IS_F1 ? 2 : 0)) & 1;
    must(is_on, "a port is touched before it has a clock", at);
    must(!IS_F1 || at != 0x40010004 || GET(ENABLES) & 1, "AFIO is touched before it has a clock", at);
}

static void judge_pin(unsigned port, unsigned n, uint32_t rows, uint32_t drains, uint32_t lights) {
    uint32_t pin = 1u << n;
    int used = !!((rows | drains | lights) & pin), level = GET(odr(port)) >> n & 1;
    if (IS_F1) {
        uint32_t mode = GET(PORT(port) + n / 8 * 4) >> n % 8 * 4 & 15;
        must(mode == (rows & pin ? 8u : drains & pin ? 6u : lights & pin ? 2u : 4u), "the mode of a pin", 16 * port + n);
        must(!(rows & pin) || level, "a row isn't pulled up", n);
    } else {
        uint32_t mode = GET(PORT(port)) >> 2 * n & 3, pull = GET(PORT(port) + 0x0C) >> 2 * n & 3, drain = GET(PORT(port) + 4) >> n & 1;
        must(!used || mode == (rows & pin ? 0u : 1u), "the mode of a pin", 16 * port + n);
        must(pull == (rows & pin ? 1u : 0u) && drain == !!(drains & pin), "the pull or the drain of a pin", 16 * port + n);
        must(port || (n != 13 && n != 14) || mode == 2, "the debugger's pins", n);
    }
    must(!(drains & pin) || level, "a wire or a column is pulled at first", 16 * port + n);
}

static void judge(void) {
    uint32_t pll = GET(IS_F1 ? CFGR : RCC + 4), rate = IS_F1 ? 8 * ((pll >> 18 & 15) + 2) : 25 / (pll & 63) * (pll >> 6 & 511) / (2 * ((pll >> 16 & 3) + 1));
    must((GET(CFGR) >> 2 & 3) == 2 && pll >> (IS_F1 ? 16 : 22) & 1 && rate == BOARD_CLOCK_MHZ, "MHz", rate);
    must((GET(CFGR) >> (IS_F1 ? 8 : 10) & 7) == 4, "APB1 is too fast", GET(CFGR));
    must((GET(IS_F1 ? 0x40022000 : 0x40023C00) & 7) == 2, "wait states", GET(IS_F1 ? 0x40022000 : 0x40023C00));
    must(GET(0x40003008) == 1000 && GET(0x40003000) == 0xAAAA, "watchdog", GET(0x40003008));
    for (unsigned n = 0; n < 16; n++) {
        judge_pin(0, n, ROWS_A, COLUMNS_A | CLOCK_A | DATA_A, LIGHTS_A);
        judge_pin(1, n, ROWS_B, COLUMNS_B | CLOCK_B | DATA_B, LIGHTS_B);
        judge_pin(2, n, 0, 0, LATE_C);
    }
    must(GET(odr(2)) == LATE_C && !(GET(odr(0)) & LIGHTS_A) && !(GET(odr(1)) & LIGHTS_B), "lights are lit at first", GET(odr(2)));
}
#endif

static volatile uint32_t *touched(uint32_t at) {
    static unsigned touches;
    settle();
    judge_access(at);
    must(++touches < 100000, "it waits for ever at", at);
    return cell(at);
}

int main(void) {
    begin();
    hal_start();
    settle();
    must(GET(0xE000E014) == 0xFFFFFF && GET(0xE000E010) == 5, "the counter", GET(0xE000E010));
    judge();
    printf("%u registers, %d MHz\n", count, BOARD_CLOCK_MHZ);
    return 0;
}
