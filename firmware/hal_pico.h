/* A Raspberry Pi Pico (RP2040), without its SDK, after the data sheet, from memory. Nobody has run it on a chip yet.
   A pin that pulls drives a 0; one that doesn't is released. */
typedef uint32_t hal_pins;

#ifndef HAL_SIM /* the simulated board has pins and time of its own */
#define PINS_IN() REG(0xD0000004)
#define PINS_SET(m) (REG(0xD0000014) = (m))
#define PINS_CLEAR(m) (REG(0xD0000018) = (m))
#define PINS_DRIVE(m) (REG(0xD0000024) = (m))
#define PINS_RELEASE(m) (REG(0xD0000028) = (m))
void hal_start(void);
static inline void hal_feed(void) { REG(0x40058004) = 200000; } /* 100 ms: it counts two in a microsecond */
#endif

static inline hal_pins hal_read(void) { return PINS_IN(); }
static inline uint8_t hal_rows(hal_pins pins) { return (uint8_t)(pins >> ROW_0); }
static inline uint32_t hal_wire_levels(hal_pins pins) {
    if (DATA == CLOCK << 1 && CLOCK <= 1u << 24) return (pins & (CLOCK | DATA)) * ((1u << 24) / CLOCK); /* neighbours at once */
    return (pins & CLOCK ? 1u << 24 : 0) | (pins & DATA ? 1u << 25 : 0);
}
static inline void hal_column(uint8_t n) {
    static const uint32_t column[16] = COLUMN;
    PINS_RELEASE(COLUMNS);
    PINS_DRIVE(column[n]);
}
static inline void hal_wires(bool clock, bool data) {
    PINS_RELEASE((clock ? CLOCK : 0) | (data ? DATA : 0));
    PINS_DRIVE((clock ? 0 : CLOCK) | (data ? 0 : DATA));
}
static inline void hal_lights(uint8_t lit) {
    static const uint32_t light[8] = LIGHT;
    PINS_CLEAR(LIGHTS);
    PINS_SET(light[lit]);
}
static inline void hal_late(bool on) {
    if (on) PINS_SET(LATE); else PINS_CLEAR(LATE);
}
