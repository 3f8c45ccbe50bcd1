/* The two halves of a keyboard of the IBM PC/AT, each proved and each by itself: the keyboard at its two wires, for a machine
   that has a keyboard controller of its own; and the 8042, the keyboard controller, at its two wires and at its two ports, for
   a machine that has a keyboard of its own. `docs/EMBEDDING.md` has a section on them. The archive is made of the proved crate
   kbd48_halves, by `c/build --halves`. `kbd48_chip.h` must be beside this file; its own archive isn't needed.

   A half is a plain struct of yours, without a pointer: copy it by assignment to go back to it. There is no heap, and no call
   keeps anything elsewhere.

   The levels of the two wires are a number: bit 0 is the clock, bit 1 data, 1 for high. A wire is low if either side pulls it,
   so its level is what the one side drives AND what the other drives.

   Time is counted in cycles of 2.5 microseconds. A step of the keyboard takes 1 or 2. In each cycle the controller first looks
   at the wires. Then the host acts: it writes, and it reads. Then the controller settles. Joined by this loop the two are the
   keyboard of kbd48.h, cycle by cycle:

       uint32_t levels = kbd48_keyboard_drive(&keyboard) & kbd48_controller_drive(&controller);
       uint32_t cycles = kbd48_keyboard_step(&keyboard, levels);
       while (cycles--) {
           levels = kbd48_keyboard_drive(&keyboard) & kbd48_controller_drive(&controller);
           kbd48_controller_look(&controller, now, levels);
           ... what the host writes and reads in this cycle ...
           did = kbd48_controller_settle(&controller, now++);
       }

   The caller ensures that a half begins as KBD48_NO_KEYBOARD or KBD48_NO_CONTROLLER, is written by these calls or by assignment
   of another one alone, and is in one call at a time; and that no two pointers of a call overlap. Any other value of any
   parameter may be given. */
#ifndef KBD48_HALVES_H
#define KBD48_HALVES_H
#include "kbd48_chip.h"

/* Each struct has the same bytes on every machine. Without this, some begin a number of 64 bits at a multiple of 4. */
#ifndef KBD48_ALIGNED
#if defined(__cplusplus) && __cplusplus >= 201103L
#define KBD48_ALIGNED alignas(8)
#elif defined(__STDC_VERSION__) && __STDC_VERSION__ >= 201112L
#define KBD48_ALIGNED _Alignas(8)
#elif defined(__GNUC__) || defined(__TINYC__)
#define KBD48_ALIGNED __attribute__((aligned(8)))
#else
#define KBD48_ALIGNED
#endif
#endif

#ifdef __cplusplus
extern "C" {
#endif

#define KBD48_CLOCK 1u
#define KBD48_DATA 2u
#define KBD48_RELEASED 3u /* both wires are high */

/* The keyboard at its two wires: its processor with a program, and its keys. Any of its fields may be read between calls. */
typedef struct {
    kbd48_chip chip;
    uint8_t columns[12]; /* the keys of each column of the matrix: bit k is row k, 0 for down */
} kbd48_keyboard;
#define KBD48_NO_KEYBOARD {KBD48_NO_CHIP, {0}}

/* The state but for the program, in one form for all machines: the processor's bytes and its data memory, and the columns. */
typedef struct {
    kbd48_chip_saved chip;
    uint8_t columns[12];
} kbd48_keyboard_saved;

/* The controller at its wires and ports. Its bytes are its own: kbd48_controller_registers and a save say what it holds. */
typedef struct {
    uint64_t own[10];
} kbd48_controller;
#define KBD48_NO_CONTROLLER {{0}}

/* Its state, in one form for all machines: three groups of the bytes that a saved keyboard has ("Saved bytes" of
   `docs/CALLS.md`), and the pins of its input port. `end` is the cycle in which the output buffer was filled (8 bytes), whether
   a reply is awaited, the bit that noise turns round in the next frame (2 bytes), and the level of the clock at the last look. */
typedef struct {
    uint8_t buffers[11], end[12], link[23];
    uint8_t pins;
} kbd48_controller_saved;

/* What is seen of it. */
typedef struct {
    uint8_t status;       /* what port 64h reads */
    uint8_t output;       /* what port 60h would read: the last byte that was put out, 00 at first. It isn't taken */
    uint8_t command_byte; /* 01 interrupt on, 04 system flag, 10 keyboard disabled, 40 translation */
    uint8_t output_port;  /* the last byte for the output port, CF at first: bit 1 is the gate of A20 */
} kbd48_controller_shown;

/* What the input that was taken in a cycle did. */
#define KBD48_DID(answer) ((uint32_t)(answer) >> 8)
#define KBD48_DID_BYTE(answer) ((uint8_t)(answer))
enum {
    KBD48_DID_NOTHING = 0,  /* nothing outside the controller, or there was no input */
    KBD48_DID_KEYBOARD = 1, /* the byte is for the keyboard */
    KBD48_DID_OUTPUT = 2,   /* the output port is this byte now: 02 is the gate of A20, a 0 in 01 resets */
    KBD48_DID_PULSE = 3     /* these of its four low lines were pulsed: each 0 bit; bit 0 is reset */
};

/* An edge of a key, and a queue of edges. The queue hands each edge over as soon as a keyboard can see it and has had the time
   to send the edge before: 2,240 cycles after a press, 4,480 after a release. If the layout has a debounce, it is 4,480 after
   each edge. So the keyboard sees the edges in the order in which they were pushed, and a stroke of any length. The queue begins
   as KBD48_NO_QUEUE, is written only by these calls or by assignment of another one, takes no memory and has no pointer. Keep
   one for each keyboard. The queue of kbd48.h is like it, but counts from cycle 4,096 on and hands over to the whole keyboard
   alone. */
typedef struct {
    KBD48_ALIGNED uint64_t stamp; /* the cycle in which it happened */
    uint8_t place;
    bool down;
} kbd48_edge;

typedef struct {
    KBD48_ALIGNED uint64_t ready; /* the cycle from which on the next edge may be handed over */
    kbd48_edge edges[160];        /* those that wait, in the order in which they were pushed */
    bool down[96];                /* whether the key at each place is down after all of them */
    uint8_t count;                /* how many wait */
} kbd48_queue;
#ifdef __cplusplus
#define KBD48_NO_QUEUE {}
#else
#define KBD48_NO_QUEUE {0}
#endif

/* What a push returns. The queue is as it was, unless the edge waits. */
enum {
    KBD48_PUSH_NO_PLACE = 0, /* the place is above 95 */
    KBD48_PUSH_WAITS = 1,
    KBD48_PUSH_REPEATED = 2, /* the key is so already: those are the repeats of a window system, to be left out */
    KBD48_PUSH_NO_ROOM = 3   /* it is a press, and 64 edges wait; a release always finds room */
};

/* The exports. Those with `_at` take the place of a pointer to the half, and leave that pointer as it is. */
void kbd48_keyboard_open_at(kbd48_keyboard **keyboard, const kbd48_program *program, uint8_t fill);
void kbd48_keyboard_reset_at(kbd48_keyboard **keyboard);
int32_t kbd48_keyboard_key_at(kbd48_keyboard **keyboard, uint8_t place, bool down);
int32_t kbd48_keyboard_step_at(kbd48_keyboard **keyboard, uint32_t levels);
int32_t kbd48_keyboard_drive_at(kbd48_keyboard **keyboard);
int32_t kbd48_keyboard_lights_at(kbd48_keyboard **keyboard);
uint32_t kbd48_keyboard_rests_at(kbd48_keyboard **keyboard, uint32_t levels, uint32_t most);
int32_t kbd48_keyboard_take_at(kbd48_keyboard **keyboard, kbd48_queue *queue, uint64_t now);
void kbd48_keyboard_save_at(kbd48_keyboard **keyboard, kbd48_keyboard_saved *saved);
int32_t kbd48_keyboard_load_at(kbd48_keyboard **keyboard, const kbd48_keyboard_saved *saved);
void kbd48_controller_reset_at(kbd48_controller **controller);
void kbd48_controller_pins_at(kbd48_controller **controller, uint8_t pins);
void kbd48_controller_look_at(kbd48_controller **controller, uint64_t now, uint32_t levels);
int32_t kbd48_controller_write_at(kbd48_controller **controller, bool command, uint8_t byte);
int32_t kbd48_controller_read60_at(kbd48_controller **controller);
int32_t kbd48_controller_flip_at(kbd48_controller **controller, uint8_t bit);
int32_t kbd48_controller_settle_at(kbd48_controller **controller, uint64_t now);
int32_t kbd48_controller_drive_at(kbd48_controller **controller);
int32_t kbd48_controller_interrupt_at(kbd48_controller **controller);
void kbd48_controller_registers_at(kbd48_controller **controller, kbd48_controller_shown *registers);
void kbd48_controller_save_at(kbd48_controller **controller, kbd48_controller_saved *saved);
int32_t kbd48_controller_load_at(kbd48_controller **controller, const kbd48_controller_saved *saved);

/* Switches the keyboard off, and on with this program, with all keys up. Its processor's data memory, accumulator and timer
   hold the byte `fill` then; a real part may hold anything. */
static inline void kbd48_keyboard_open(kbd48_keyboard *keyboard, const kbd48_program *program, uint8_t fill) {
    kbd48_keyboard_open_at(&keyboard, program, fill);
}

/* Pulls the reset pin of the keyboard's processor for a moment, as kbd48_chip_reset does. The keys stay as they are. */
static inline void kbd48_keyboard_reset(kbd48_keyboard *keyboard) {
    kbd48_keyboard_reset_at(&keyboard);
}

/* The key at a place, 0 to 95 (eight times its column plus its row), goes down or up. Returns 1, or 0 for any other place; then
   nothing has changed. */
static inline int32_t kbd48_keyboard_key(kbd48_keyboard *keyboard, uint8_t place, bool down) {
    return kbd48_keyboard_key_at(&keyboard, place, down);
}

/* One step of the keyboard's processor, with the wires at these levels, as they are when the step begins: an instruction, or the
   entry of an interrupt. Returns its cycles, 1 or 2, or 0 if the byte at the program counter begins no instruction; then nothing
   has changed. Then that many cycles pass. What kbd48_keyboard_drive and kbd48_keyboard_lights return holds from the first of
   them on. */
static inline uint32_t kbd48_keyboard_step(kbd48_keyboard *keyboard, uint32_t levels) {
    return (uint32_t)kbd48_keyboard_step_at(&keyboard, levels);
}

/* The levels that the keyboard drives on the wires: a 0 pulls the wire. */
static inline uint32_t kbd48_keyboard_drive(kbd48_keyboard *keyboard) {
    return (uint32_t)kbd48_keyboard_drive_at(&keyboard);
}

/* The lights: 01 Scroll Lock, 02 Num Lock, 04 Caps Lock. */
static inline uint8_t kbd48_keyboard_lights(kbd48_keyboard *keyboard) {
    return (uint8_t)kbd48_keyboard_lights_at(&keyboard);
}

/* For how many cycles, at most `most`, the keyboard goes on with the drive and the lights of now, if no key moves and the other
   side drives these levels all the while: KBD48_RELEASED if it pulls no wire. They are those of whole steps. The next step
   changes the drive or the lights, would end after more than `most` cycles, or can't be made: then kbd48_keyboard_step returns
   0. So it may be one less than `most`. The keyboard stays as it is; it is 0 if the very next step changes something.

   So you may let that much time pass without a call. Then make the steps, with the levels of the wires as ever, until as many
   cycles have passed. If you move a key, or the other side changes what it drives, make the steps up to that cycle first. The
   call makes the steps on a copy, so it takes as long as they do. */
static inline uint32_t kbd48_keyboard_rests(kbd48_keyboard *keyboard, uint32_t levels, uint32_t most) {
    return kbd48_keyboard_rests_at(&keyboard, levels, most);
}

/* The key at a place, 0 to 95, goes down or up in this cycle, after all edges that wait in the queue. Returns one of
   KBD48_PUSH_... */
int32_t kbd48_queue_push(kbd48_queue *queue, uint64_t now, uint8_t place, bool down);

/* Each key that is down goes up in this cycle, after all edges that wait. Call it when your window loses the focus. */
void kbd48_queue_release_all(kbd48_queue *queue, uint64_t now);

/* In how many cycles from this one on the next edge is due: 0 if one is due now, and `most` if none is due before. */
uint32_t kbd48_queue_wait(kbd48_queue *queue, uint64_t now, uint32_t most);

/* Hands over the edge of the queue that is due in this cycle: its key goes down or up. Call it before each step, or when
   kbd48_queue_wait returned 0. Returns 1, or 0 if none is due, and from cycle 2^63 on; then nothing has changed. Whether the
   layout has a debounce is read from the keyboard's program. */
static inline int32_t kbd48_keyboard_take(kbd48_keyboard *keyboard, kbd48_queue *queue, uint64_t now) {
    return kbd48_keyboard_take_at(&keyboard, queue, now);
}

/* Writes the keyboard's state but for the program. */
static inline void kbd48_keyboard_save(kbd48_keyboard *keyboard, kbd48_keyboard_saved *saved) {
    kbd48_keyboard_save_at(&keyboard, saved);
}

/* Goes to this state; the program stays. Returns 1, or 0 if the program counter, the prescaler or the status byte is none that a
   processor has; then nothing has changed. Any other bytes are a state: of what is true or false, 1 alone is true; a way of
   counting above 2 is 2; any columns are taken. */
static inline int32_t kbd48_keyboard_load(kbd48_keyboard *keyboard, const kbd48_keyboard_saved *saved) {
    return kbd48_keyboard_load_at(&keyboard, saved);
}

/* Resets the controller alone: it is as at power-on, with both buffers empty and the command byte 45. Call it first. The pins of
   its input port stay as they are. */
static inline void kbd48_controller_reset(kbd48_controller *controller) {
    kbd48_controller_reset_at(&controller);
}

/* The pins of the input port have these levels from now on, B0 if you never set them: bit 7 is the keylock (1 open), bit 6 the
   display's switch (0 colour, 1 monochrome), bit 5 the manufacturing jumper (1 not installed), bit 4 the memory's jumper (0 for
   512 KB on the board, 1 for 256 KB). The other bits mean nothing. Command C0 puts out all eight, and nothing else reads them:
   a closed lock holds no key back, and bit 4 of the status is always 1. */
static inline void kbd48_controller_pins(kbd48_controller *controller, uint8_t pins) {
    kbd48_controller_pins_at(&controller, pins);
}

/* The controller's look at the wires in cycle `now`, one more than that of the last look. The clock falls if it was high at the
   last look and is low now; in the first look after a reset it was high. */
static inline void kbd48_controller_look(kbd48_controller *controller, uint64_t now, uint32_t levels) {
    kbd48_controller_look_at(&controller, now, levels);
}

/* The host writes a byte: to port 64h if it is a command, else to port 60h. Returns 1, or 0 if the input buffer is full; then
   nothing has changed. The controller takes the byte in a kbd48_controller_settle. */
static inline int32_t kbd48_controller_write(kbd48_controller *controller, bool command, uint8_t byte) {
    return kbd48_controller_write_at(&controller, command, byte);
}

/* The host reads port 60h: the last byte that the controller put out, 00 at first. That empties the output buffer. */
static inline uint8_t kbd48_controller_read60(kbd48_controller *controller) {
    return (uint8_t)kbd48_controller_read60_at(&controller);
}

/* Noise turns round a bit of the next frame that the keyboard begins: a data bit, 1 to 8, or the parity, 9. Returns 1, or 0 for
   any other bit; then nothing has changed. */
static inline int32_t kbd48_controller_flip(kbd48_controller *controller, uint8_t bit) {
    return kbd48_controller_flip_at(&controller, bit);
}

/* The controller settles at the end of cycle `now`, that of its look. Returns what the input that it took did. */
static inline int32_t kbd48_controller_settle(kbd48_controller *controller, uint64_t now) {
    return kbd48_controller_settle_at(&controller, now);
}

/* The levels that the controller drives on the wires: a 0 pulls the wire. */
static inline uint32_t kbd48_controller_drive(kbd48_controller *controller) {
    return (uint32_t)kbd48_controller_drive_at(&controller);
}

/* Whether the interrupt line (IRQ 1) is up: the output buffer is full, and its interrupt is enabled. */
static inline bool kbd48_controller_interrupt(kbd48_controller *controller) {
    return kbd48_controller_interrupt_at(&controller) != 0;
}

/* What is seen of the controller. The status is what port 64h reads: 01 output buffer full, 02 input buffer full, 04 system flag,
   08 last write to 64h, 10 always, 80 parity error. */
static inline void kbd48_controller_registers(kbd48_controller *controller, kbd48_controller_shown *registers) {
    kbd48_controller_registers_at(&controller, registers);
}

/* Writes the controller's state. The cycle is yours: save it too. */
static inline void kbd48_controller_save(kbd48_controller *controller, kbd48_controller_saved *saved) {
    kbd48_controller_save_at(&controller, saved);
}

/* Goes to this state. Returns 1, or 0 for more than ten bits or edges of a frame, and for a full output buffer while the keyboard
   isn't held off; then nothing has changed. Any other bytes are a state: of what is true or false, 1 alone is true, and a kind
   that is too large is the largest. */
static inline int32_t kbd48_controller_load(kbd48_controller *controller, const kbd48_controller_saved *saved) {
    return kbd48_controller_load_at(&controller, saved);
}

#ifdef __cplusplus
}
#endif
#endif
