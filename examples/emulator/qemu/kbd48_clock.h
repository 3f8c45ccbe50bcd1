/* When a device of kbd48 is run in QEMU: up to the present at each access, each millisecond while something may happen by itself,
   and each 50 ms while nothing can. */
#ifndef KBD48_CLOCK_H
#define KBD48_CLOCK_H
#include "qemu/timer.h"

enum {
    KBD48_NS_PER_CYCLE = 2500,
    KBD48_BUSY_NS = 1000000,
    KBD48_REST_NS = 50000000,
    KBD48_STALL = 8000,  /* 20 ms, in cycles */
    KBD48_QUIET = 160000 /* 400 ms: longer than the self-test after FF, the longest thing that a keyboard does by itself */
};

typedef struct {
    QEMUTimer *timer;
    uint64_t start; /* the device's cycle at time 0 of QEMU's virtual clock */
    uint64_t last;  /* the cycle in which something last happened */
    bool resting;
} kbd48_clock;

/* The cycle that the device, which is at this cycle, should have reached. If it is run so late while something may happen, the
   computer has stalled QEMU. The guest couldn't read meanwhile, so no time has passed for the device either. */
static inline uint64_t kbd48_clock_goal(kbd48_clock *clock, uint64_t cycle)
{
    uint64_t goal = clock->start + qemu_clock_get_ns(QEMU_CLOCK_VIRTUAL) / KBD48_NS_PER_CYCLE;

    if (!clock->resting && goal > cycle + KBD48_STALL) {
        clock->start -= goal - (cycle + KBD48_STALL);
        goal = cycle + KBD48_STALL;
    }
    return goal;
}

/* The device is at this cycle, and is run again later. `idle` says that no key is down and no byte is under way. If besides
   nothing has happened for longer than a self-test takes, nothing can happen until somebody acts. */
static inline void kbd48_clock_later(kbd48_clock *clock, uint64_t cycle, bool idle)
{
    clock->resting = idle && cycle > clock->last + KBD48_QUIET;
    timer_mod(clock->timer, qemu_clock_get_ns(QEMU_CLOCK_VIRTUAL) + (clock->resting ? KBD48_REST_NS : KBD48_BUSY_NS));
}

/* Somebody has acted in this cycle. */
static inline void kbd48_clock_acted(kbd48_clock *clock, uint64_t cycle)
{
    clock->last = cycle;
    if (clock->resting) {
        kbd48_clock_later(clock, cycle, false);
    }
}

/* The device is opened at this cycle; `due` runs it. */
static inline void kbd48_clock_open(kbd48_clock *clock, uint64_t cycle, QEMUTimerCB *due, void *device)
{
    clock->start = clock->last = cycle;
    clock->timer = timer_new_ns(QEMU_CLOCK_VIRTUAL, due, device);
    kbd48_clock_later(clock, cycle, false);
}

#endif
