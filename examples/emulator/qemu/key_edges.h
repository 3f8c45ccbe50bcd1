/* A queue of edges of keys for the keyboard alone, as kbd48.h has one for the whole: each edge is handed over after the edge
   before it has had its time, so strokes of any length come in order. It begins as all zeros. */
#ifndef KEY_EDGES_H
#define KEY_EDGES_H
#include <stdbool.h>
#include <stdint.h>
#include <string.h>

enum {
    KEY_EDGES_ROOM = 128,
    KEY_EDGES_AFTER_PRESS = 2240, /* cycles, 5.6 ms: the keyboard looks at its keys in each 5.12 */
    KEY_EDGES_AFTER_RELEASE = 4480
};

typedef struct {
    uint8_t place;
    bool down;
} key_edge;

typedef struct {
    uint64_t ready;  /* the cycle from which on the next edge may be handed over */
    uint8_t first, count;
    key_edge edges[KEY_EDGES_ROOM];
    bool down[96];   /* whether the key at each place is down after all edges that wait */
} key_edges;

/* An edge is last in the queue. The repeats of a window system are left out. Returns false if there is no room. */
static inline bool key_edges_push(key_edges *queue, uint8_t place, bool down)
{
    if (queue->down[place] == down) {
        return true;
    }
    if (queue->count == KEY_EDGES_ROOM) {
        return false;
    }
    queue->edges[(queue->first + queue->count++) % KEY_EDGES_ROOM] = (key_edge) {place, down};
    queue->down[place] = down;
    return true;
}

/* Takes the next edge, if one is due in this cycle. */
static inline bool key_edges_take(key_edges *queue, uint64_t cycle, key_edge *edge)
{
    if (queue->count == 0 || cycle < queue->ready) {
        return false;
    }
    *edge = queue->edges[queue->first];
    queue->first = (queue->first + 1) % KEY_EDGES_ROOM;
    queue->count--;
    queue->ready = cycle + (edge->down ? KEY_EDGES_AFTER_PRESS : KEY_EDGES_AFTER_RELEASE);
    return true;
}

/* Whether a queue that was loaded is one that these calls make. */
static inline bool key_edges_are_sound(const key_edges *queue)
{
    bool sound = queue->first < KEY_EDGES_ROOM && queue->count <= KEY_EDGES_ROOM;

    for (int i = 0; i < KEY_EDGES_ROOM; i++) {
        sound = sound && queue->edges[i].place < sizeof queue->down;
    }
    return sound;
}

/* No edge waits, and no key is down. */
static inline bool key_edges_idle(const key_edges *queue)
{
    return queue->count == 0 && !memchr(queue->down, true, sizeof queue->down);
}

#endif
