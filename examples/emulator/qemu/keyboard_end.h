/* The keyboard's end of the two wires, clock and data, for a keyboard that has no wires: bytes to and from the controller on one
   side, a cycle of 2.5 microseconds at the wires on the other. It has the times of docs/LINK.md: the clock falls eleven times in
   a byte, each 32 cycles after the last, and rises 16 later. The levels are those of kbd48_halves.h.

       levels = ...what the controller drives... & keyboard_end_drive(&end);
       taken = keyboard_end_look(&end, levels);

   An end begins as KEYBOARD_END. It is a plain struct: a save is a copy. */
#ifndef KEYBOARD_END_H
#define KEYBOARD_END_H
#include <stdbool.h>
#include <stdint.h>

enum {
    KEYBOARD_END_CLOCK = 1,
    KEYBOARD_END_DATA = 2,
    KEYBOARD_END_PERIOD = 32,  /* cycles from one fall of the clock to the next */
    KEYBOARD_END_LOW = 16,     /* of these the clock is low */
    KEYBOARD_END_READ = 18,    /* data is read so many cycles after a fall, and the clock is looked at from then on */
    KEYBOARD_END_CHANGE = 21,  /* data is changed so many cycles after a fall */
    KEYBOARD_END_BITS = 11,
    KEYBOARD_END_LAST = 10,    /* falls after which a byte is no more broken off */
    KEYBOARD_END_QUIET = 40,   /* cycles for which both wires are high before a byte, 100 microseconds */
    KEYBOARD_END_NOTHING = -1, /* the controller has sent no byte in this cycle */
    KEYBOARD_END_DAMAGED = -2  /* it has sent one whose parity or stop is wrong: the keyboard answers FE */
};

typedef enum {
    KEYBOARD_END_FREE,
    KEYBOARD_END_SENDS,
    KEYBOARD_END_RECEIVES
} keyboard_end_state;

typedef struct {
    uint8_t state;   /* a keyboard_end_state */
    uint8_t cycles;  /* since the last fall of the clock, or while free, for how long both wires have been high */
    uint8_t falls;   /* of the clock, since this byte began */
    uint16_t frame;  /* the bits that are sent, or those that came; the first is bit 0 */
    int16_t waiting; /* the byte for the controller, or KEYBOARD_END_NOTHING */
    uint8_t drive;   /* the levels that this end drives */
} keyboard_end;
#define KEYBOARD_END {KEYBOARD_END_FREE, 0, 0, 0, KEYBOARD_END_NOTHING, KEYBOARD_END_CLOCK | KEYBOARD_END_DATA}

/* Whether the number of ones is odd. */
static inline bool keyboard_end_odd(uint32_t bits)
{
    bits ^= bits >> 8;
    bits ^= bits >> 4;
    return 0x6996 >> (bits & 15) & 1;
}

/* A byte for the controller. Returns false if one waits already. */
static inline bool keyboard_end_send(keyboard_end *end, uint8_t byte)
{
    if (end->waiting != KEYBOARD_END_NOTHING) {
        return false;
    }
    end->waiting = byte;
    return true;
}

/* Whether an end that was loaded is one that these calls make. */
static inline bool keyboard_end_is_sound(const keyboard_end *end)
{
    return end->state <= KEYBOARD_END_RECEIVES && end->falls <= KEYBOARD_END_BITS && end->waiting >= KEYBOARD_END_NOTHING &&
           end->waiting <= 0xFF && (end->state != KEYBOARD_END_SENDS || end->waiting != KEYBOARD_END_NOTHING);
}

/* The levels that this end drives. */
static inline uint32_t keyboard_end_drive(const keyboard_end *end)
{
    return end->drive;
}

static inline void keyboard_end_put(keyboard_end *end, bool data)
{
    end->drive = (uint8_t)((end->drive & KEYBOARD_END_CLOCK) | (data ? KEYBOARD_END_DATA : 0));
}

static inline void keyboard_end_let_go(keyboard_end *end)
{
    end->state = KEYBOARD_END_FREE;
    end->cycles = 0;
    end->drive = KEYBOARD_END_CLOCK | KEYBOARD_END_DATA;
}

/* Takes back the byte that waits, and stops sending it. Returns it, or KEYBOARD_END_NOTHING. */
static inline int keyboard_end_take_back(keyboard_end *end)
{
    int byte = end->waiting;

    if (end->state == KEYBOARD_END_SENDS) {
        keyboard_end_let_go(end);
    }
    end->waiting = KEYBOARD_END_NOTHING;
    return byte;
}

/* The first fall comes KEYBOARD_END_PERIOD - KEYBOARD_END_CHANGE cycles later. */
static inline void keyboard_end_begin(keyboard_end *end, keyboard_end_state state, uint16_t frame)
{
    end->state = state;
    end->cycles = KEYBOARD_END_CHANGE;
    end->falls = 0;
    end->frame = frame;
}

/* The clock goes on: it falls, or rises. Returns true after the eleventh rise. */
static inline bool keyboard_end_clocks(keyboard_end *end)
{
    end->cycles++;
    if (end->cycles == KEYBOARD_END_PERIOD) {
        end->cycles = 0;
        end->falls++;
        end->drive &= KEYBOARD_END_DATA;
    } else if (end->cycles == KEYBOARD_END_LOW) {
        end->drive |= KEYBOARD_END_CLOCK;
        return end->falls == KEYBOARD_END_BITS;
    }
    return false;
}

static inline void keyboard_end_free(keyboard_end *end, bool clock, bool data)
{
    if (clock && data && end->cycles < KEYBOARD_END_QUIET) {
        end->cycles++;
    } else if (!clock || !data) {
        end->cycles = 0;
    }
    if (clock && !data) {
        keyboard_end_begin(end, KEYBOARD_END_RECEIVES, 0);
    } else if (end->cycles == KEYBOARD_END_QUIET && end->waiting != KEYBOARD_END_NOTHING) {
        uint16_t byte = (uint16_t)end->waiting;
        keyboard_end_begin(end, KEYBOARD_END_SENDS, (uint16_t)(byte << 1 | !keyboard_end_odd(byte) << 9 | 1 << 10));
        keyboard_end_put(end, false);
    }
}

static inline void keyboard_end_sends(keyboard_end *end, bool clock)
{
    if (keyboard_end_clocks(end)) {
        end->waiting = KEYBOARD_END_NOTHING;
        keyboard_end_let_go(end);
    } else if (end->cycles >= KEYBOARD_END_READ && end->falls < KEYBOARD_END_LAST && !clock) {
        keyboard_end_let_go(end); /* the controller pulls the clock: the byte is broken off, and waits */
    } else if (end->cycles == KEYBOARD_END_CHANGE) {
        keyboard_end_put(end, end->frame >> end->falls & 1);
    }
}

/* Returns the byte that is complete. */
static inline int keyboard_end_receives(keyboard_end *end, bool data)
{
    int byte = end->frame & 0xFF;
    bool stop = end->frame >> 9 & 1;

    if (keyboard_end_clocks(end)) {
        keyboard_end_let_go(end);
        return stop && keyboard_end_odd(end->frame & 0x1FF) ? byte : KEYBOARD_END_DAMAGED;
    }
    if (end->cycles == KEYBOARD_END_READ && end->falls > 0) {
        end->frame |= (uint16_t)(data << (end->falls - 1));
    } else if (end->cycles == KEYBOARD_END_CHANGE && end->falls == KEYBOARD_END_LAST) {
        keyboard_end_put(end, false); /* the keyboard acknowledges the byte */
    }
    return KEYBOARD_END_NOTHING;
}

/* One cycle, in which the wires have these levels. Returns the byte of the controller that is complete in it, if one is. */
static inline int keyboard_end_look(keyboard_end *end, uint32_t levels)
{
    bool clock = levels & KEYBOARD_END_CLOCK, data = levels & KEYBOARD_END_DATA;

    switch (end->state) {
    case KEYBOARD_END_FREE:
        keyboard_end_free(end, clock, data);
        return KEYBOARD_END_NOTHING;
    case KEYBOARD_END_SENDS:
        keyboard_end_sends(end, clock);
        return KEYBOARD_END_NOTHING;
    default:
        return keyboard_end_receives(end, data);
    }
}

#endif
