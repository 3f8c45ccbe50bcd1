/* The host's end of the two wires of an AT keyboard, clock and data, for a controller that has no wires: bytes to and from the
   keyboard on one side, a look at the wires in each cycle of 2.5 microseconds on the other. It keeps the rules of docs/LINK.md,
   and counts eleven falls of the clock in a byte. The levels are those of kbd48_halves.h: bit 0 is the clock, bit 1 data, 1 for
   high; a wire is low if either end pulls it.

       levels = host_end_drive(&end) & ...what the keyboard drives...;
       came = host_end_look(&end, levels);

   An end begins as HOST_END. It is a plain struct: a save is a copy. */
#ifndef HOST_END_H
#define HOST_END_H
#include <stdbool.h>
#include <stdint.h>

enum {
    HOST_END_CLOCK = 1,
    HOST_END_DATA = 2,
    HOST_END_PULL = 40,     /* cycles that each pull of the clock lasts at least: 100 microseconds. The manual has 60 */
    HOST_END_BITS = 11,     /* of a frame: start, eight data bits with the lowest first, parity, stop */
    HOST_END_WAITING = 16,  /* bytes for the keyboard that wait */
    HOST_END_NOTHING = -1,  /* no byte came in this cycle */
    HOST_END_DAMAGED = -2   /* one came whose start, parity or stop is wrong: send FE, and the keyboard sends it again */
};

typedef enum {
    HOST_END_FREE,     /* both wires are let go; the keyboard may begin a byte */
    HOST_END_RECEIVES, /* the keyboard has begun a byte */
    HOST_END_HOLDS,    /* the clock is pulled: the keyboard sends nothing, and drops what it has begun */
    HOST_END_REQUESTS, /* a byte waits: data is pulled, which is the start bit, and the clock is let go */
    HOST_END_SENDS     /* the keyboard makes the clock fall, and reads the byte */
} host_end_state;

typedef struct {
    uint8_t state;                      /* a host_end_state */
    uint8_t falls;                      /* of the clock, since this byte began */
    uint16_t frame;                     /* the bits that came, or those that are sent; the first is bit 0 */
    uint32_t pulled;                    /* cycles since the clock was pulled */
    bool clock;                         /* its level at the last look */
    bool hold;                          /* no byte of the keyboard is taken now */
    uint8_t count, waiting[HOST_END_WAITING]; /* the bytes for the keyboard, in order */
} host_end;
#define HOST_END {HOST_END_FREE, 0, 0, 0, true, false, 0, {0}}

/* Whether the number of ones is odd. */
static inline bool host_end_odd(uint32_t bits)
{
    bits ^= bits >> 8;
    bits ^= bits >> 4;
    return 0x6996 >> (bits & 15) & 1;
}

/* A byte for the keyboard. Returns false if sixteen wait already. */
static inline bool host_end_send(host_end *end, uint8_t byte)
{
    if (end->count == HOST_END_WAITING) {
        return false;
    }
    end->waiting[end->count++] = byte;
    return true;
}

/* While it is true, no byte of the keyboard is taken; one that has begun still comes. A controller does so while the last byte
   waits to be read, and while the keyboard is disabled. */
static inline void host_end_hold(host_end *end, bool hold)
{
    end->hold = hold;
}

/* Whether an end that was loaded is one that these calls make. */
static inline bool host_end_is_sound(const host_end *end)
{
    bool waits = end->state == HOST_END_REQUESTS || end->state == HOST_END_SENDS;

    return end->state <= HOST_END_SENDS && end->falls <= HOST_END_BITS && end->count <= HOST_END_WAITING &&
           (!waits || end->count > 0);
}

/* The levels that this end drives. */
static inline uint32_t host_end_drive(const host_end *end)
{
    switch (end->state) {
    case HOST_END_HOLDS:
        return HOST_END_DATA;
    case HOST_END_REQUESTS:
        return HOST_END_CLOCK;
    case HOST_END_SENDS:
        return HOST_END_CLOCK | ((end->frame >> end->falls & 1) ? HOST_END_DATA : 0);
    default:
        return HOST_END_CLOCK | HOST_END_DATA;
    }
}

/* The byte in a frame. */
static inline int host_end_byte(uint16_t frame)
{
    bool start = frame & 1, stop = frame >> (HOST_END_BITS - 1) & 1;

    return !start && stop && host_end_odd(frame >> 1 & 0x1FF) ? frame >> 1 & 0xFF : HOST_END_DAMAGED;
}

/* The frame of a byte. */
static inline uint16_t host_end_frame(uint8_t byte)
{
    return (uint16_t)(byte << 1 | !host_end_odd(byte) << 9 | 1 << 10);
}

/* The clock has fallen. Returns the byte that is complete with it. */
static inline int host_end_fell(host_end *end, bool data)
{
    switch (end->state) {
    case HOST_END_FREE:
        end->state = HOST_END_RECEIVES;
        end->falls = 0;
        end->frame = 0;
        break;
    case HOST_END_REQUESTS:
        end->state = HOST_END_SENDS;
        end->falls = 0;
        end->frame = host_end_frame(end->waiting[0]);
        break;
    }
    if (end->state == HOST_END_RECEIVES) {
        end->frame |= (uint16_t)(data << end->falls);
    }
    end->falls++;
    if (end->falls < HOST_END_BITS) {
        return HOST_END_NOTHING;
    }
    if (end->state == HOST_END_RECEIVES) {
        end->state = HOST_END_FREE;
        return host_end_byte(end->frame);
    }
    end->state = HOST_END_FREE; /* the keyboard has the byte */
    end->count--;
    for (uint8_t i = 0; i < end->count; i++) {
        end->waiting[i] = end->waiting[i + 1];
    }
    return HOST_END_NOTHING;
}

/* One cycle, in which the wires have these levels. Returns the byte of the keyboard that is complete in it, if one is. */
static inline int host_end_look(host_end *end, uint32_t levels)
{
    bool clock = levels & HOST_END_CLOCK, fell = end->clock && !clock;
    int came = HOST_END_NOTHING;

    end->clock = clock;
    if (end->state == HOST_END_HOLDS) {
        end->pulled++;
        if (end->pulled >= HOST_END_PULL && end->count > 0) {
            end->state = HOST_END_REQUESTS;
        } else if (end->pulled >= HOST_END_PULL && !end->hold) {
            end->state = HOST_END_FREE;
        }
    } else if (fell) {
        came = host_end_fell(end, levels & HOST_END_DATA);
    } else if (end->state == HOST_END_FREE && (end->hold || end->count > 0)) {
        end->state = HOST_END_HOLDS;
        end->pulled = 0;
    }
    return came;
}

#endif
