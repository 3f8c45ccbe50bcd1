/* The two ends of the wires, joined: random bytes pass both ways while the host holds the keyboard off at random. Each must come
   once, right and in order. Prints how many came; the status is 1 if one is wrong or missing. */
#include "host_end.h"
#include "keyboard_end.h"

#include <stdio.h>

enum { CYCLES = 20000000 };

static uint32_t seed = 1;

static uint32_t chance(uint32_t of)
{
    seed = seed * 1664525 + 1013904223;
    return (seed >> 8) % of;
}

/* The bytes of one direction: those that were sent are in a ring until they come. */
typedef struct {
    uint8_t ring[64];
    uint32_t sent, came, wrong;
} passage;

static uint8_t next(passage *p)
{
    return p->ring[p->sent++ % 64] = (uint8_t)chance(256);
}

static void arrived(passage *p, int byte)
{
    p->wrong += p->came == p->sent || byte != p->ring[p->came % 64];
    p->came++;
}

int main(void)
{
    host_end host = HOST_END;
    keyboard_end keyboard = KEYBOARD_END;
    passage to_host = {{0}, 0, 0, 0}, to_keyboard = {{0}, 0, 0, 0};

    for (uint32_t cycle = 0; cycle < CYCLES; cycle++) {
        bool ends = cycle > CYCLES - 100000; /* nothing new: all that was sent must come */
        int byte;
        if (keyboard.waiting == KEYBOARD_END_NOTHING && !ends && chance(500) == 0) {
            keyboard_end_send(&keyboard, next(&to_host));
        }
        if (host.count < HOST_END_WAITING && !ends && chance(5000) == 0) {
            host_end_send(&host, next(&to_keyboard));
        }
        host_end_hold(&host, !ends && (host.hold ? chance(300) != 0 : chance(3000) == 0));
        byte = keyboard_end_look(&keyboard, host_end_drive(&host) & keyboard_end_drive(&keyboard));
        if (byte != KEYBOARD_END_NOTHING) {
            arrived(&to_keyboard, byte);
        }
        byte = host_end_look(&host, host_end_drive(&host) & keyboard_end_drive(&keyboard));
        if (byte != HOST_END_NOTHING) {
            arrived(&to_host, byte);
        }
    }
    printf("%u bytes came from the keyboard, %u from the host", to_host.came, to_keyboard.came);
    printf(", %u wrong, %u missing\n", to_host.wrong + to_keyboard.wrong,
           to_host.sent - to_host.came + to_keyboard.sent - to_keyboard.came);
    return to_host.wrong + to_keyboard.wrong > 0 || to_host.came != to_host.sent || to_keyboard.came != to_keyboard.sent;
}
