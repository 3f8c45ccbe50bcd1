/* A keyboard of the IBM PC/AT in a handle: keys and port accesses go in as they happen, and bytes, the interrupt line
   and the lights come out. `docs/EMBEDDING.md` shows how it is used, `docs/CLAIMS.md` says
   what of it is proved.

   Time is counted in cycles of 2.5 microseconds, 400,000 a second. A step is one instruction of the keyboard's
   processor, and takes one cycle or two. Between two calls the machine is between two steps. If a call makes a step,
   its comment says so.

   Each function but kbd48_text, kbd48_version and those of kbd48_help returns a status. With an empty handle each call that needs a keyboard
   returns KBD48_NOT_OPEN and does nothing (a run then says that 0 cycles passed). A call that is refused leaves the
   keyboard as it was: the statuses are KBD48_NO_SUCH_PLACE, KBD48_NO_SUCH_PORT, KBD48_NO_SUCH_BIT, KBD48_FULL,
   KBD48_EARLY, and of a call that makes one step also KBD48_STUCK and KBD48_OVER. A call writes through its pointers if
   the status is KBD48_DONE. If it also writes with another status, its comment says so.

   The caller ensures that
   - a handle begins as KBD48_EMPTY, is written only by these functions, and is never copied;
   - no pointer is null, each points to what it names (a text of 0 bytes too), and no two of a call overlap;
   - a handle is in one call at a time; between calls it may go to another thread, if the two calls are ordered;
   - no call comes from a signal handler, or from the forked child of a process with threads. */
#ifndef KBD48_H
#define KBD48_H
#include <stdbool.h>
#include <stddef.h>
#include <stdint.h>

/* Each struct has the same bytes on every machine. Without this, some begin a number of 64 bits at a multiple of 4. */
#if defined(__cplusplus) && __cplusplus >= 201103L
#define KBD48_ALIGNED alignas(8)
#elif defined(__STDC_VERSION__) && __STDC_VERSION__ >= 201112L
#define KBD48_ALIGNED _Alignas(8)
#elif defined(__GNUC__) || defined(__TINYC__)
#define KBD48_ALIGNED __attribute__((aligned(8)))
#else
#define KBD48_ALIGNED
#endif

#ifdef __cplusplus
extern "C" {
#endif

/* The last release. Calls that CHANGELOG.md lists as unreleased are newer. */
#define KBD48_VERSION "1.0.0"
#define KBD48_VERSION_NUMBER 10000 /* 10,000 times the first part, 100 times the second, and the third */

/* A keyboard, or none. */
typedef struct {
    void *at;
} kbd48;
#define KBD48_EMPTY {NULL} /* what a handle begins as */

enum {
    KBD48_DONE = 0,           /* it was done */
    KBD48_NOT_OPEN = 1,       /* the handle is empty */
    KBD48_NO_MEMORY = 2,      /* there is no memory */
    KBD48_BAD_TEXT = 3,       /* the layout or the HEX text has a fault */
    KBD48_TOO_LONG = 4,       /* the HEX text has more than 16,384 bytes, or the layout more than 65,536 */
    KBD48_NO_SUCH_PLACE = 5,  /* the matrix has the places 0 to 95 */
    KBD48_NO_SUCH_PORT = 6,   /* the controller has the ports 0x60 and 0x64 */
    KBD48_FULL = 7,           /* the input buffer is full, or four edges wait for a step */
    KBD48_STUCK = 8,          /* the keyboard's processor is at a byte that begins no instruction */
    KBD48_EARLY = 9,          /* the program stuck in its first 4,096 cycles, before stamp 0 */
    KBD48_OVER = 10,          /* 2 to the 62nd cycles have passed, and no more are counted */
    KBD48_NO_WORD = 11,       /* the buffer of INT 09h is empty */
    KBD48_ROSE = 12,          /* the interrupt line rose */
    KBD48_NO_SUCH_CELL = 13,  /* data memory has the cells 0 to 127 */
    KBD48_NOTHING_SAID = 14,  /* nothing was said since something was last handed out */
    KBD48_LOST = 15,          /* more was said than is kept */
    KBD48_REPEATED = 16,      /* the key is already down, or already up, after the edges that wait */
    KBD48_KEY_DUE = 17,       /* the next edge of the queue is due: call again with the cycles that are left */
    KBD48_NO_SUCH_KEY = 18,   /* no key has the name, or the layout has no such key */
    KBD48_NO_SUCH_BIT = 19,   /* noise turns round the bits 1 to 9 of a frame */
    KBD48_BAD_SIZE = 20,      /* a saved keyboard has KBD48_SAVED bytes, a saved queue KBD48_SAVED_KEYS: here are fewer, or more */
    KBD48_NOT_SAVED = 21,     /* the bytes don't begin as those of a saved keyboard, or a saved queue */
    KBD48_OTHER_VERSION = 22, /* the bytes are of another version of the format */
    KBD48_BAD_STATE = 23      /* the bytes mean no state that a keyboard or a queue can be in */
};

/* The status in words; there is a text for every number. */
static inline const char *kbd48_text(int32_t status) {
    static const char *const texts[] = {
        "it was done", "the keyboard is not open", "there is no memory left", "the text has a fault", "the text is too long",
        "the matrix has the places 0 to 95", "the controller has the ports 60h and 64h", "there is no room",
        "the processor is at a byte that begins no instruction", "the processor stuck before stamp 0",
        "the count of cycles is at its end", "there is no word", "the interrupt line rose",
        "data memory has the cells 0 to 127", "nothing was said", "more was said than is kept", "the key is so already",
        "the next edge is due", "no key has this name", "noise turns round the bits 1 to 9 of a frame",
        "that is not the size of a saved keyboard or queue", "these bytes are no saved keyboard or queue",
        "this was saved in another version", "no keyboard or queue is in such a state",
    };
    return status >= 0 && (size_t)status < sizeof texts / sizeof *texts ? texts[status] : "no such status";
}

/* The KBD48_VERSION_NUMBER that the library was built with. */
int32_t kbd48_version(void);

/* The first fault of a text: the entry of a layout or the line of a HEX text, counted from 1, and the number of the
   rule that it breaks (`docs/FORMATS.md`). Entry 0 is the layout as a whole. */
typedef struct {
    uint32_t position;
    uint32_t number;
} kbd48_fault;

/* What a stuck processor is at: its program counter, 0 to 4,095, and the byte there. */
typedef struct {
    uint16_t counter;
    uint8_t byte;
} kbd48_spot;

/* Opens a keyboard of this layout (TOML, at most 65,536 bytes) at `handle`, and closes the one that was there. Its
   firmware is compiled, the board is powered on, 4,096 cycles pass, which is stamp 0, and INT 09h is masked. Takes all
   memory that the keyboard takes: only kbd48_copy, kbd48_load and the calls that open take any. A text that is too long or
   no UTF-8 is refused before any is taken. On KBD48_BAD_TEXT `fault` is the first fault; with any other status `fault` is
   as it was. On any failure the handle is as it was. */
int32_t kbd48_open_layout(const uint8_t *text, size_t length, kbd48 *handle, kbd48_fault *fault);

/* The same with the sample layout, us84: 84 keys, each at the place of its number. No text is read. */
int32_t kbd48_open_sample(kbd48 *handle);

/* The place, 0 to 95, of the key with this name in a layout's text, or in the sample layout. `examples/us84.toml` has
   the names of the 84 keys; they are compared byte by byte. Returns KBD48_NO_SUCH_KEY if there is no such key, and what
   kbd48_open_layout returns if the text is no layout. A text that is too long is refused first, and then a name that no key
   has. These two calls need no handle. The first then takes memory, and gives it back before it returns. */
int32_t kbd48_layout_key(const uint8_t *text, size_t length, const uint8_t *name, size_t name_length, uint8_t *place);
int32_t kbd48_sample_key(const uint8_t *name, size_t length, uint8_t *place);

/* As kbd48_open_layout, with a program memory of any program, as an Intel HEX text of at most 16,384 bytes. A program
   that sticks in its first cycles is opened too, and stays there. */
int32_t kbd48_open_hex(const uint8_t *text, size_t length, kbd48 *handle, kbd48_fault *fault);

/* The same, and the keyboard's power-on test is over. Steps are made until the interrupt line rises for its AA, which
   is at cycle 136,000 or so, or for a second (400,000 cycles) if it doesn't rise. A BIOS that waits only 41 ms after
   power-on finds such a keyboard. kbd48_next hands out what was said on the way. */
int32_t kbd48_open_ready_layout(const uint8_t *text, size_t length, kbd48 *handle, kbd48_fault *fault);
int32_t kbd48_open_ready_hex(const uint8_t *text, size_t length, kbd48 *handle, kbd48_fault *fault);
int32_t kbd48_open_ready_sample(kbd48 *handle);

/* Switches the keyboard off and on again. It keeps its program, and is as kbd48_open_hex opens it: at stamp 0, with all
   keys up and with INT 09h masked. Its count of cycles begins anew, and is 4,098 for a layout. What was said before is
   gone. At power-on each byte of its data memory, its accumulator and its timer hold `fill`. The calls that open have 00
   there; a real part may hold anything. A layout's firmware clears what it uses. A queue of edges (below) begins anew with
   the keyboard: assign KBD48_NO_KEYS to it. Takes no memory. */
int32_t kbd48_power_on(kbd48 *handle, uint8_t fill);

/* Frees the keyboard, and leaves the handle empty. */
int32_t kbd48_close(kbd48 *handle);

/* Opens a copy of the keyboard of `from` at `to`, in place of the one that was there. The copy is in the same state and
   has memory of its own: the same calls return the same. Memory is taken only if `to` is empty; on KBD48_NO_MEMORY it
   stays empty. Keep a copy to go back to, or open one board up to its AA and copy it for each machine. */
int32_t kbd48_copy(kbd48 *from, kbd48 *to);

/* Writes the keyboard's state at the beginning of a buffer of at least KBD48_SAVED bytes; the bytes after these stay as
   they were. `docs/CALLS.md` has the format byte by byte. It has no pointer and no memory of this machine, so it can
   be stored and loaded elsewhere. A queue of edges (below) is a struct of yours: store what kbd48_save_keys writes of it
   beside these bytes. Returns KBD48_BAD_SIZE if the buffer is too short, and writes nothing then. */
#define KBD48_SAVED 3077
int32_t kbd48_save(kbd48 *handle, uint8_t *buffer, size_t length);

/* Opens the keyboard that KBD48_SAVED bytes mean at `handle`, and closes the one that was there. It is in the state in
   which the saved one was: the same calls return the same. Any bytes may be given: those that mean no keyboard return
   KBD48_BAD_SIZE, KBD48_NOT_SAVED, KBD48_OTHER_VERSION or KBD48_BAD_STATE. A truth value that isn't 1 is taken for 0, and
   a kind that is too large for the largest (`docs/CALLS.md`). On any failure the handle is as it was. */
int32_t kbd48_load(kbd48 *handle, const uint8_t *bytes, size_t length);

/* The key at a place, 0 to 95 (eight times its column plus its row), goes down or up. The edge is made before the next
   step; no step is made yet. Returns KBD48_FULL if four edges wait already: run a step first. */
int32_t kbd48_key(kbd48 *handle, uint8_t place, bool down);

/* Makes steps until `cycles` cycles have passed; a last step of two cycles may make it one more. If `watched` is true,
   it also ends when the interrupt line rises, and returns KBD48_ROSE. `passed` is how many cycles passed, whatever the
   status. On KBD48_STUCK `spot` has the counter and the byte at which the processor is stuck. */
int32_t kbd48_run(kbd48 *handle, uint64_t cycles, bool watched, uint64_t *passed, kbd48_spot *spot);

/* A queue of edges of keys. It hands each edge to the keyboard as soon as the keyboard can see it and has had the time
   to send the edge before: 2,240 cycles after a press, 4,480 after a release. If the layout has a debounce, it is 4,480
   after each edge. So the keyboard sees the edges in the order in which they were pushed, and a stroke of any length. The
   queue is a struct of yours: it begins as KBD48_NO_KEYS, is written only by these functions, takes no memory and has no
   pointer. Copy it by assignment; keep one for each keyboard. */
typedef struct {
    KBD48_ALIGNED uint64_t stamp; /* when it happened: the cycle minus 4,096 */
    uint8_t place;
    bool down;
} kbd48_pushed;

typedef struct {
    KBD48_ALIGNED uint64_t ready; /* the stamp from which on the next edge may be handed over */
    kbd48_pushed edges[160];      /* those that wait, in the order in which they were pushed */
    bool down[96];                /* whether the key at each place is down after all of them */
    uint8_t count;                /* how many wait */
} kbd48_keys;
#ifdef __cplusplus
#define KBD48_NO_KEYS {}
#else
#define KBD48_NO_KEYS {0} /* what a queue begins as: no edge waits, and all keys are up */
#endif

/* The key at a place, 0 to 95, goes down or up at this cycle (that of kbd48_cycle, or a later one), after all edges
   that wait. Returns KBD48_REPEATED if it is already down, or already up: those are the repeats of a window system, to
   be left out. Returns KBD48_FULL if a key goes down and 64 edges wait; a release always finds room. In both cases the
   queue is as it was. */
int32_t kbd48_queue_key(kbd48_keys *queue, uint64_t cycle, uint8_t place, bool down);

/* Each key that is down goes up at this cycle, after all edges that wait. Call it when your window loses the focus. */
int32_t kbd48_release_all(kbd48_keys *queue, uint64_t cycle);

/* How many edges wait, at most 160. */
int32_t kbd48_queued(kbd48_keys *queue, uint8_t *count);

/* Writes the queue at the beginning of a buffer of at least KBD48_SAVED_KEYS bytes; the bytes after these stay as they
   were. `docs/CALLS.md` has the format byte by byte. It is the same on every machine, whatever the struct is there. Store
   it beside the bytes of kbd48_save. Returns KBD48_BAD_SIZE if the buffer is too short, and writes nothing then. */
#define KBD48_SAVED_KEYS 1629
int32_t kbd48_save_keys(kbd48_keys *queue, uint8_t *buffer, size_t length);

/* Makes the queue the one that KBD48_SAVED_KEYS bytes mean. Any bytes may be given: those that mean no queue return
   KBD48_BAD_SIZE, KBD48_NOT_SAVED, KBD48_OTHER_VERSION or KBD48_BAD_STATE. On any failure the queue is as it was. */
int32_t kbd48_load_keys(kbd48_keys *queue, const uint8_t *bytes, size_t length);

/* Hands over the edge of the queue that is due, and then runs as kbd48_run does, but at most up to the next edge that
   is due. KBD48_KEY_DUE says that fewer than `cycles` cycles have passed: call again with the rest. The edge is handed
   over as by kbd48_key, so it waits while four edges of that call wait. The byte at 3F2 of the keyboard's program says
   whether there is a debounce: a layout's image has 0 there if there is none. */
int32_t kbd48_run_keys(kbd48 *handle, kbd48_keys *queue, uint64_t cycles, bool watched, uint64_t *passed,
                       kbd48_spot *spot);

/* What a run may be asked to stop for. */
enum {
    KBD48_STOP_RISE = 1,  /* the interrupt line rises */
    KBD48_STOP_ITEM = 2,  /* something is said: kbd48_next hands it out */
    KBD48_STOP_WIRES = 4, /* a wire's level after a step differs from that before it */
    KBD48_STOP_COUNTER = 8  /* the processor's counter reaches `at`, 0 to 2,047 (its low 11 bits) */
};

/* Makes steps until one of them does what `mask` asks for, or until `cycles` cycles have passed (one more at most) or
   `steps` steps were made. `met` is what the last step did of that; it is 0 if a limit ended the run. `passed` and
   `spot` are as for kbd48_run. It makes many steps at once, as kbd48_run does; with KBD48_STOP_COUNTER it makes them one
   at a time. A tick of a layout's firmware begins at the counter KBD48_TICK. */
#define KBD48_TICK 0x007
int32_t kbd48_run_to(kbd48 *handle, uint8_t mask, uint16_t at, uint64_t cycles, uint64_t steps, uint8_t *met,
                     uint64_t *passed, kbd48_spot *spot);

/* The host writes a byte to port 0x60 or 0x64, in one step. Returns KBD48_FULL if the controller's input buffer is
   full. */
int32_t kbd48_write(kbd48 *handle, uint8_t port, uint8_t byte);

/* The host reads port 0x60, in one step: the last byte that the controller put out, 00 at first. If bit 0 of the status is
   1, that is the `output` of kbd48_look. If it is 0, the controller may put out another byte in this very step. */
int32_t kbd48_read60(kbd48 *handle, uint8_t *byte);

/* The host reads the status at port 0x64, in one step: 01 output buffer full, 02 input buffer full, 04 system flag, 08
   last write to 0x64, 10 always, 80 parity error. */
int32_t kbd48_status(kbd48 *handle, uint8_t *byte);

/* Help for two BIOSes, off unless you ask for it (`docs/EMBEDDING.md`). What the guest sees with it isn't the machine's. The
   struct is yours: it begins as the options that you want, and zeros. It takes no memory and has no pointer. Copy it by
   assignment; keep one for each keyboard; store it beside a save. */
typedef struct {
    bool seabios;   /* the byte after F0 is replaced by EF */
    bool bochs;     /* the self-test after FF takes the guest no time */
    bool parameter; /* the controller awaits a parameter at port 0x60, after 60 or D1 at port 0x64 */
    uint8_t last;   /* the last byte that the keyboard was given, or 00 */
} kbd48_help;

/* Call it before each kbd48_write for the guest. Returns the byte to write in place of the guest's: with `seabios` EF for
   the byte that the keyboard is given after F0, and else the same. EF is then what it was given. If kbd48_write returns
   KBD48_FULL and you drop the byte, assign the struct as it was before. */
uint8_t kbd48_help_write(kbd48_help *help, uint8_t port, uint8_t byte);

/* Call it after the guest has read this byte from port 0x60. With `bochs` it returns true if the byte is FA and the keyboard
   was given FF last; this is said once. Then run the keyboard on, `watched`, until the line rises at the end of the
   self-test. */
bool kbd48_help_read(kbd48_help *help, uint8_t byte);

/* Switches INT 09h of this project on or off, in one step. While it is on, it reads each byte 64 cycles after it was
   put out. At first it is off, and the host is the caller. */
int32_t kbd48_bios(kbd48 *handle, bool on);

/* Noise turns round a bit of the next frame that the keyboard begins, in one step: a data bit, 1 to 8, or the parity, 9.
   Another call before that frame replaces it. The byte then comes wrong, and the controller asks for it again, but for
   the fourth in a row. It is what `flip` of a key file does. Returns KBD48_NO_SUCH_BIT for any other bit. */
int32_t kbd48_flip(kbd48 *handle, uint8_t bit);

/* A program takes the next word from the buffer of INT 09h: the scan code is the high byte, the character the low one.
   This makes one step, also if the buffer is empty, for which it returns KBD48_NO_WORD. */
int32_t kbd48_take(kbd48 *handle, uint16_t *word);

/* What happened: what the log says, item by item, and the bytes that pass over the wires. */
enum {
    KBD48_ITEM_PORT = 0,        /* INT 09h read this byte from port 0x60 */
    KBD48_ITEM_READ = 1,        /* kbd48_read60 read this byte */
    KBD48_ITEM_WORD = 2,        /* INT 09h entered this word into its buffer */
    KBD48_ITEM_BEEP = 3,        /* the buffer had no room, or it was an overrun */
    KBD48_ITEM_OVERRUN = 4,     /* the keyboard's queue had overrun */
    KBD48_ITEM_LIGHTS = 5,      /* these lights are lit now: 01 Scroll, 02 Num, 04 Caps */
    KBD48_ITEM_TAKEN = 6,       /* kbd48_take took this word */
    KBD48_ITEM_TAKEN_NONE = 7,  /* kbd48_take found the buffer empty */
    KBD48_ITEM_STATUS = 8,      /* kbd48_status read this byte */
    KBD48_ITEM_OUTPUT = 9,      /* the output port is this byte now: 02 is the gate of A20, a 0 in 01 resets */
    KBD48_ITEM_PULSE = 10,      /* these of its four low lines were pulsed: each 0 bit; bit 0 is reset */
    KBD48_ITEM_BROKE = 11,      /* Ctrl with Scroll Lock emptied the buffer */
    KBD48_ITEM_PAUSE = 12,      /* Ctrl with Num Lock began a pause */
    KBD48_ITEM_RESUME = 13,     /* a key ended it */
    KBD48_ITEM_PRINT = 14,      /* Shift with the print key */
    KBD48_ITEM_BOOT = 15,       /* Ctrl, Alt and Del */
    KBD48_ITEM_SYS_MAKE = 16,   /* SysReq went down */
    KBD48_ITEM_SYS_BREAK = 17,  /* SysReq went up */
    KBD48_ITEM_SENT = 18,       /* the keyboard has sent this byte over the wires, as it was there before any noise */
    KBD48_ITEM_GIVEN = 19       /* the controller has sent the keyboard this byte */
};

typedef struct {
    KBD48_ALIGNED uint64_t cycle; /* the cycle in which it happened */
    uint8_t kind;                 /* one of KBD48_ITEM_... */
    uint16_t value;               /* the byte or the word, or 0 */
} kbd48_item;

/* Hands out what happened next, in order, and makes no step. In one step the byte that passes comes before what is said.
   Returns KBD48_NOTHING_SAID when all was handed out. Sixty-four items are kept. If there are more, all after them are
   lost, until KBD48_LOST says so, once, after the 64th. */
int32_t kbd48_next(kbd48 *handle, kbd48_item *item);

/* The calls from here on make no step and change nothing. */

/* How many items were lost and not reported yet. KBD48_LOST, after the items that are kept, means this number. */
int32_t kbd48_lost(kbd48 *handle, uint64_t *lost);

/* Whether the interrupt line (IRQ 1) is up: the output buffer is full, and its interrupt is enabled. It stays up until
   port 0x60 is read, or a command disables the interrupt. */
int32_t kbd48_interrupt(kbd48 *handle, bool *up);

/* How often the line rose in the last run, which may be of no step, or in the last call of the host's that wasn't
   refused. It may fall and rise within one step, so that it is up before and after: if you read AA while the controller
   has a command, its answer follows in the same cycle. An interrupt controller in edge mode needs each rise. */
int32_t kbd48_rises(kbd48 *handle, uint64_t *rises);

/* The lights: 01 Scroll Lock, 02 Num Lock, 04 Caps Lock. */
int32_t kbd48_lights(kbd48 *handle, uint8_t *lights);

/* The levels of the two wires after the last cycle, true for high. A wire is low if the keyboard or the controller
   pulls it. kbd48_run_to stops at each change. */
int32_t kbd48_wires(kbd48 *handle, bool *clock, bool *data);

/* Which wires the keyboard pulls and which the controller pulls, both after the last cycle: 1 the clock, 2 data. */
int32_t kbd48_pulls(kbd48 *handle, uint8_t *keyboard, uint8_t *controller);

/* How many cycles have passed since power-on. A stamp of a key file counts from cycle 4,096. */
int32_t kbd48_cycle(kbd48 *handle, uint64_t *cycle);

/* The controller's registers. */
typedef struct {
    uint8_t status;       /* what port 0x64 would read */
    uint8_t output;       /* what port 0x60 would read: the last byte that was put out, 00 at first. It isn't taken */
    uint8_t command_byte; /* 01 interrupt on, 04 system flag, 10 keyboard disabled, 40 translation */
    uint8_t output_port;  /* the last byte for the output port, CF at first: bit 1 is the gate of A20 */
} kbd48_registers;

int32_t kbd48_look(kbd48 *handle, kbd48_registers *registers);

/* How many edges of keys wait for a step, at most 4, and how many words in the buffer of INT 09h, at most 15. */
int32_t kbd48_waiting(kbd48 *handle, uint8_t *edges, uint8_t *words);

/* The keys of a column of the matrix, 0 to 11, as the keyboard's processor reads them, before a debounce: bit k is row k,
   0 for down. An edge that waits isn't made yet. */
int32_t kbd48_column(kbd48 *handle, uint8_t number, uint8_t *rows);

/* The keyboard's processor, an 8049. */
typedef struct {
    uint16_t counter;   /* the program counter, 0 to 4,095 */
    uint8_t byte;       /* the byte of the program there */
    uint8_t a;          /* the accumulator */
    bool carry, half_carry, f0, f1;
    bool register_bank; /* true: bank 1 */
    bool memory_bank;   /* bit 11 of the next JMP or CALL */
    uint8_t stack;      /* the stack pointer, 0 to 7 */
    uint8_t t;          /* the timer */
    uint8_t prescaler;  /* 0 to 31 machine cycles */
    uint8_t counts;     /* 0 the timer is off, 1 it counts machine cycles, 2 it counts falls of T1 */
    bool timer_flag, external_on, timer_on, request, service;
    uint8_t p1, p2, bus; /* the latches of the ports and of the bus */
} kbd48_processor;

int32_t kbd48_inside(kbd48 *handle, kbd48_processor *shown);

/* A byte of the processor's data memory, 0 to 127. */
int32_t kbd48_cell(kbd48 *handle, uint8_t number, uint8_t *byte);

#ifdef __cplusplus
}
#endif
#endif
