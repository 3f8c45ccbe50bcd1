/* An STM32F103 ("blue pill") or F401, F411 ("black pill"), after the reference manuals, from memory. Nobody has run it on a chip
   yet. Pins are those of the ports A, B and C. Columns and wires are open drain: a 1 lets go. */
typedef struct { uint32_t a, b; } hal_pins;

#ifndef HAL_SIM /* the simulated board has pins and time of its own */
#define PORT(n) (GPIO + GPIO_SIZE * (n)) /* 0 for A */
#define PORT_IN(n) REG(PORT(n) + GPIO_IN)
#define PORT_PUT(n, set, clear) (REG(PORT(n) + GPIO_PUT) = (set) | (uint32_t)(clear) << 16)
void hal_start(void);
static inline void hal_feed(void) { REG(0x40003000) = 0xAAAA; }
/* The independent watchdog counts 1,000 periods of 4 clocks of some 32 to 40 kHz: 100 to 125 ms. */
static inline void watchdog_start(void) {
    REG(0x40003000) = 0xCCCC;
    REG(0x40003000) = 0x5555;
    REG(0x40003004) = 0;
    REG(0x40003008) = 1000;
    hal_feed();
}
#endif

static inline hal_pins hal_read(void) { return (hal_pins){PORT_IN(0), PORT_IN(1)}; }
static inline uint8_t hal_rows(hal_pins pins) { return (uint8_t)((ROWS_A ? pins.a : pins.b) >> ROW_0); }
static inline uint32_t hal_wire_levels(hal_pins pins) {
    return ((pins.a & CLOCK_A) | (pins.b & CLOCK_B) ? 1u << 24 : 0) | ((pins.a & DATA_A) | (pins.b & DATA_B) ? 1u << 25 : 0);
}
/* Puts 1 at some of the pins with these masks, and 0 at the others. */
#define PUT(all_a, all_b, ones_a, ones_b) do { \
        if (all_a) PORT_PUT(0, ones_a, (all_a) & ~(ones_a)); \
        if (all_b) PORT_PUT(1, ones_b, (all_b) & ~(ones_b)); \
    } while (0)
static inline void hal_column(uint8_t n) {
    static const uint16_t a[16] = COLUMN_A, b[16] = COLUMN_B;
    PUT(COLUMNS_A, COLUMNS_B, COLUMNS_A & ~a[n], COLUMNS_B & ~b[n]);
}
static inline void hal_wires(bool clock, bool data) {
    PUT(CLOCK_A | DATA_A, CLOCK_B | DATA_B, (clock ? CLOCK_A : 0) | (data ? DATA_A : 0), (clock ? CLOCK_B : 0) | (data ? DATA_B : 0));
}
static inline void hal_lights(uint8_t lit) {
    static const uint16_t a[8] = LIGHT_A, b[8] = LIGHT_B;
    PUT(LIGHTS_A, LIGHTS_B, a[lit], b[lit]);
}
static inline void hal_late(bool on) { /* a light at port C, which a 0 lights */
    PORT_PUT(2, on ? 0 : LATE_C, on ? LATE_C : 0);
}
