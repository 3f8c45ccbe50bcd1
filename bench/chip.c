// A keyboard on parts that take their time: an MCS-48 with the states of its cycles, two wires that rise slowly, and a host.
// `bench/chip` compiles and runs it. Nothing here is proved, and nothing here is shared with the program.
//
// The first word is a HEX file, the others are NAME=NUMBER (the table `words`). The answer is a line of NAME=NUMBER.
//
// When an instruction that begins with cycle x acts, by the instruction timing diagram of Intel's MCS-48 Family User's
// Manual (quoted from memory, as is the state within the cycle): a cycle has five states.
//   OUTL       the port changes with the end of cycle x              (state 5 of the first cycle)
//   ANL, ORL   the port changes with the end of cycle x + 1          (state 5 of the second)
//   JT0 .. JNT1  the pin is sampled in the middle of cycle x         (state 3 of the first)
//   INS, IN    the pins are sampled in the middle of cycle x + 1     (the second; the state isn't sure)
// A chip of today that simulates the processor (`port=1`) samples all pins as a step begins, and writes after it has computed the
// step. A step begins as soon as those before it have taken their cycles, and later if it was held up: then it catches up.
// The event counter, external interrupts and memory outside the chip aren't built.
#include <stdbool.h>
#include <stdint.h>
#include <stdio.h>
#include <stdlib.h>
#include <string.h>

typedef int64_t Time; // tenths of a cycle: 0.25 microseconds
enum { CYCLE = 10, US = 4, MS = 4000 };
#define FOREVER (INT64_MAX / 4)
enum { CLOCK, DATA };

// ------------------------------------------------------------------------------------------------ what is asked for
typedef struct {
    long seed, length, polling, pull, hold, requests, inhibits, keys, rise, latency, period, resend;
    long look, outl, anl, ins, entry_from, entry_to, noise, noisy, noise_width;
    long upset, in_service, place, flip_bank, flip_service, stop_timer, stop_interrupt, scramble;
    long port, compute, stall, stall_in, counts, cut_from, cut_to;
    long trace, watch, press, press_at, release_at, low_wire, low_from, low_to, ram, pins_only, lag, all_keys, flip_bit, reset;
    long chatter, spikes, debounce;
} Asked;
static Asked asked = {.seed = 1, .length = 2000, .pull = 100 * US, .hold = 100 * US, .period = 10 * US, .place = -1,
                      .noise_width = 2 * US, .press = -1, .low_wire = -1, .compute = 5, .stall_in = 16, .counts = 11};

typedef struct { const char *name; long *field; long unit; } Word;
static const Word words[] = {
    {"seed", &asked.seed, 1},             // of the random numbers
    {"ms", &asked.length, 1},            // how long the run is, in milliseconds
    {"polling", &asked.polling, 1},       // 1: the host polls the wires; 0: a falling clock interrupts it
    {"period", &asked.period, US},        // of a polling host's loop
    {"latency", &asked.latency, US},      // of an edge-triggered host, at most
    {"pull", &asked.pull, US},            // how long the host pulls the clock for a request or to hold the keyboard off
    {"hold", &asked.hold, US},            // how long it pulls the clock after each byte
    {"requests", &asked.requests, 1},     // bytes of the host a second: EE, which the keyboard echoes
    {"inhibits", &asked.inhibits, 1},     // pulls a second for no reason
    {"keys", &asked.keys, 1},             // 1: somebody types
    {"resend", &asked.resend, 1},         // 1: the host asks for a byte again that came wrong
    {"rise", &asked.rise, 1},             // how long a released wire stays low, in units of 0.25 microseconds
    {"look", &asked.look, 1},             // how much later JT0 .. JNT1 sample, in tenths of a cycle
    {"outl", &asked.outl, 1},             // how much later OUTL changes the port
    {"anl", &asked.anl, 1},               // how much later ANL and ORL change it
    {"ins", &asked.ins, 1},               // how much later INS and IN sample
    {"entry_from", &asked.entry_from, 1}, // how many cycles an interrupt's entry is late, at least
    {"entry_to", &asked.entry_to, 1},     // and at most
    {"noise", &asked.noise, 1},           // short pulls of a wire a second
    {"noisy", &asked.noisy, 1},           // on which wire: 0 clock, 1 data
    {"noise_width", &asked.noise_width, 1}, // how long at most, in units of 0.25 microseconds
    {"upset", &asked.upset, 1},           // 1: the processor is upset once, and must then work again
    {"in_service", &asked.in_service, 1}, // 1: in a tick; 0: in the main program
    {"place", &asked.place, 1},           // the counter's new value; -1: as it was; -2: anywhere; -3: anywhere past the program
    {"flip_bank", &asked.flip_bank, 1},   {"flip_service", &asked.flip_service, 1},
    {"stop_timer", &asked.stop_timer, 1}, {"stop_interrupt", &asked.stop_interrupt, 1},
    {"scramble", &asked.scramble, 1},     // 1: memory, A, the stack pointer, flags and timer take random values
    {"trace", &asked.trace, 1},           // print the state before each of so many steps, with all pins high
    {"watch", &asked.watch, 1},           // 1: print each change of ports 1 and 2
    {"press", &asked.press, 1},           // the place of a key that is down from `press_at` to `release_at` (milliseconds)
    {"press_at", &asked.press_at, 1},     {"release_at", &asked.release_at, 1},
    {"low_wire", &asked.low_wire, 1},     // a wire that something holds low from `low_from` to `low_to` (milliseconds)
    {"low_from", &asked.low_from, 1},     {"low_to", &asked.low_to, 1},
    {"ram", &asked.ram, 1},               // what memory holds at power-on
    {"lag", &asked.lag, 1},               // how much later data falls than it is pulled, in units of 0.25 microseconds
    {"all_keys", &asked.all_keys, 1},     // 1: the upset is that all keys go down at once, and up at once
    {"flip_bit", &asked.flip_bit, 1},     // a bit of this cell of data memory flips; -1: of any
    {"reset", &asked.reset, 1},           // 1: after the upset the host sends FF
    {"port", &asked.port, 1},             // 1: the processor is simulated by a chip of today (firmware/main.c)
    {"compute", &asked.compute, 1},       // how long that one computes a step, in tenths of a cycle
    {"stall", &asked.stall, 1},           // by how many cycles it is held up at most, and in one step
    {"stall_in", &asked.stall_in, 1},     // of how many
    {"counts", &asked.counts, 1},         // 11: the host counts eleven falls a byte; 10: it takes the byte at the tenth
    {"cut_from", &asked.cut_from, CYCLE}, // in every second byte the host pulls the clock, from so many cycles after the first
    {"cut_to", &asked.cut_to, CYCLE},     // fall to so many, each time one cycle later, and somewhere within the cycle
    {"chatter", &asked.chatter, US},      // how long a key's contact chatters after each of its edges, at most; half of it at least
    {"debounce", &asked.debounce, 1},     // 1: the image's layout is given a debounce
    {"spikes", &asked.spikes, 1},         // contacts a second that read wrong for at most 2 ms
    {"no_host", &asked.pins_only, 1},     // 1: nothing is plugged in
};

static uint64_t noise_state;
static uint32_t drawn(uint32_t below) { // xorshift64*: a number below the one given
    noise_state ^= noise_state >> 12;
    noise_state ^= noise_state << 25;
    noise_state ^= noise_state >> 27;
    return (uint32_t)((noise_state * 0x2545F4914F6CDD1DULL >> 32) * (uint64_t)below >> 32);
}
// The time from now to the next of so many events a second.
static Time until_next(long a_second) { return a_second ? 1 + drawn((uint32_t)(2000 * MS / a_second)) : FOREVER; }

// ------------------------------------------------------------------------------------------------ wires and matrix
typedef struct {
    bool high, pulls;   // somebody pulls it now
    Time pulled, free;  // when it was last pulled, and when it was last free
    Time noisy_until;
} Wire;
typedef struct { Time at; uint8_t port, value; } Write;

static Time now;
static Wire wire[2] = {{true, false, -FOREVER, 0, 0}, {true, false, -FOREVER, 0, 0}};
static uint8_t port[3] = {0xFF, 0xFF, 0xFF}; // what the pins of the bus, port 1 and port 2 show
static Write writes[4];
static int pending;
static bool key[128];

// ------------------------------------------------------------------------------------------------ the host
enum State { IDLE, RECEIVING, HOLDING, PULLING, ASKING, SENDING };
typedef struct {
    enum State state;
    bool clock, data;    // what it pulls
    bool seen;           // the clock when it last looked
    Time sample_at;      // when an edge that was noticed is handled
    Time next_poll, until, next_request, next_inhibit, next_noise;
    Time cut_at, cut;    // when it pulls the clock within a byte, and when in the last one, from `cut_from` on
    bool cuts;           // it does so in this byte
    int bits, count, byte, last_sent;
    bool wants, awaits;  // it wants to send `byte`; it awaits the reply
    Time reply_by;
} Host;
static Host host;

typedef struct { long requests, collided, garbled, codes, lost, extra, resets, refused, echoes, resent, cuts; } Counted;
static Counted counted;

enum { EXPECTED = 4096 };
static uint8_t expected[EXPECTED];
static unsigned first_due, last_due;
static bool started; // a byte has come

static bool is_odd(int byte) { return __builtin_parity((unsigned)byte); }

static void take(int byte) { // a whole byte of the keyboard's
    bool aa_due = first_due != last_due && expected[first_due % EXPECTED] == 0xAA;
    host.awaits = false;
    started = true;
    if (byte == 0xEE) { counted.echoes++; return; }
    if (byte == 0xAA && !aa_due) { counted.resets++; return; }
    if (byte == 0xFE) { counted.refused++; return; }
    for (unsigned ahead = first_due; ahead != last_due; ahead++)
        if (expected[ahead % EXPECTED] == byte) {
            counted.lost += ahead - first_due;
            first_due = ahead + 1;
            return;
        }
    counted.extra++;
}

static void pull_for(enum State state, Time length) {
    host.state = state;
    host.clock = true;
    host.until = now + length;
    host.count = 0;
}

static void answer_missing(void) { counted.collided++; host.awaits = false; }

static void take_frame(void) {
    int byte = host.bits >> 1 & 0xFF;
    bool stop = asked.counts == 10 || host.bits >> 10 & 1;
    bool right = !(host.bits & 1) && stop && is_odd(byte) != (host.bits >> 9 & 1);
    if (right && host.awaits && host.last_sent == 0xEE && byte != 0xEE) answer_missing();
    if (right) take(byte); else counted.garbled++;
    if (asked.counts == 11) pull_for(HOLDING, asked.hold);
    if (!right && asked.resend) { host.wants = true; host.byte = 0xFE; counted.resent++; }
}

static void plan_cut(void) { // at the first fall of a byte
    if (asked.cut_to <= asked.cut_from) return;
    host.cuts = !host.cuts;
    if (!host.cuts) return;
    host.cut_at = now + asked.cut_from + host.cut + drawn(CYCLE);
    host.cut = (host.cut + CYCLE) % (asked.cut_to - asked.cut_from);
}

static void cut_byte(void) {
    host.cut_at = FOREVER;
    if (host.state != IDLE && host.state != RECEIVING) return;
    counted.cuts++;
    pull_for(HOLDING, asked.pull);
}

static void put_bit(void) { // the host's next bit, at a falling clock
    host.count++;
    if (host.count <= 8) host.data = !(host.byte >> (host.count - 1) & 1);
    else if (host.count == 9) host.data = is_odd(host.byte);
    else host.data = false;
}

static void on_fall(bool data) {
    switch (host.state) {
    case IDLE:
        host.state = RECEIVING;
        host.bits = data;
        host.count = 1;
        host.until = now + 2 * MS;
        plan_cut();
        break;
    case RECEIVING:
        host.bits |= data << host.count++;
        if (host.count == asked.counts) take_frame();
        else if (host.count == 11) host.state = IDLE; // the frame ends for a host that has taken it at the tenth fall
        break;
    case ASKING:
        host.state = SENDING;
        host.until = now + 2 * MS;
        put_bit();
        break;
    case SENDING:
        if (host.count < 10) { put_bit(); break; }
        host.state = IDLE;
        if (data) { counted.collided++; break; } // no acknowledge
        host.awaits = true;
        host.reply_by = now + 25 * MS;
        break;
    default: break;
    }
}

static void time_is_up(void) {
    bool asks = host.state == PULLING;
    if (host.state == ASKING || host.state == SENDING) counted.collided++;
    if (host.state == RECEIVING && host.count > 0) counted.garbled++;
    host.clock = false;
    host.data = asks;
    host.seen = false;
    host.sample_at = FOREVER;
    host.state = asks ? ASKING : IDLE;
    host.until = asks ? now + 20 * MS : FOREVER;
    if (asks) { host.wants = false; host.last_sent = host.byte; host.count = 0; }
}

static void start_pulls(void) { // only while no frame is past its tenth bit, nor one of the host's under way
    bool may = host.state == IDLE || (host.state == RECEIVING && host.count < 10);
    if (!may) return;
    if (now >= host.next_request) {
        host.next_request = now + until_next(asked.requests);
        if (!host.wants && !host.awaits) { host.wants = true; host.byte = 0xEE; counted.requests++; }
    }
    if (host.wants && !host.awaits) pull_for(PULLING, asked.pull);
    else if (now >= host.next_inhibit) {
        host.next_inhibit = now + asked.pull + until_next(asked.inhibits);
        host.reply_by = now + 25 * MS; // it can't come while it is held off
        pull_for(HOLDING, asked.pull);
    }
}

static void host_step(void) {
    if (host.awaits && now >= host.reply_by) answer_missing();
    if (host.state == PULLING && now >= host.until - 5 * US) host.data = true; // the start bit, before the clock is let go
    if (now >= host.until && host.state != IDLE) time_is_up();
    if (asked.polling && now < host.next_poll) return;
    if (asked.polling) host.next_poll = now + asked.period + drawn((uint32_t)asked.period / 4 + 1);
    if (now >= host.sample_at) { host.sample_at = FOREVER; on_fall(wire[DATA].high); }
    if (!host.clock) {
        bool fell = host.seen && !wire[CLOCK].high;
        host.seen = wire[CLOCK].high;
        if (fell && asked.polling) on_fall(wire[DATA].high);
        else if (fell && host.sample_at == FOREVER) host.sample_at = now + drawn((uint32_t)asked.latency + 1);
    }
    if (now >= host.cut_at) cut_byte();
    start_pulls();
}

// ------------------------------------------------------------------------------------------------ time
static Time next_key;
static int typed = -1; // the place of the key that is down
static uint8_t rom[2048];

// Whether a place is that of a key with a make and a break: its code is in page 3, and it isn't among the make-only ones.
static bool is_key(int place) { return rom[0x300 + place] && !(rom[0x3C1 + place / 8] >> place % 8 & 1); }
enum { PLACES = 96 };
static int first_key(void) {
    int place = 0;
    while (place < PLACES && !is_key(place)) place++;
    return place;
}

// Contacts: after an edge of its key each chatters, in levels of 50 µs to 1 ms. These numbers are drawn apart from the others,
// so that the same seed has the same keys with and without chatter.
typedef struct { Time until, next; bool level; } Contact;
static Contact contact[128];
static Time next_spike, spike_until;
static int spiked = -1;

static uint32_t drawn_apart(uint32_t below) {
    static uint64_t state = 88172645463325252;
    state ^= state << 13; state ^= state >> 7; state ^= state << 17;
    return (uint32_t)((state >> 16) % below);
}

static void turn(int place, bool down) {
    key[place] = down;
    Time longest = asked.chatter;
    contact[place] = (Contact){now + longest / 2 + drawn_apart((uint32_t)(longest - longest / 2) + 1), now, down};
}

static bool is_closed(int place) {
    Contact *at = &contact[place];
    bool level = key[place];
    if (now < at->until) {
        for (; at->next <= now; at->next += 50 * US + drawn_apart(950 * US)) at->level = drawn_apart(2);
        level = at->level;
    }
    return level != (place == spiked && now < spike_until);
}

static void spike_step(void) { // a contact of a key that isn't being struck reads wrong for a while
    if (now < next_spike) return;
    next_spike = now + until_next(asked.spikes);
    do spiked = (int)drawn_apart(PLACES); while (!is_key(spiked));
    spike_until = now + 1 + drawn_apart(2 * MS);
}

static void expect(uint8_t byte) { expected[last_due++ % EXPECTED] = byte; counted.codes++; }

static void let_go(void) {
    if (typed < 0) return;
    turn(typed, false);
    expect(0xF0);
    expect(rom[0x300 + typed]);
    typed = -1;
}

static void type_step(void) { // one key after another, never two edges within twenty milliseconds
    if (now < next_key) return;
    next_key = now + 30 * MS + drawn(60 * MS);
    if (typed >= 0) let_go();
    else {
        do typed = (int)drawn(PLACES); while (!is_key(typed));
        turn(typed, true);
        expect(rom[0x300 + typed]);
    }
}

static Time lag(int which) { return which == DATA ? asked.lag : 0; }

static void wire_step(int which, bool pulls) {
    Wire *at = &wire[which];
    at->pulls = pulls || now < at->noisy_until;
    if (!at->pulls) at->free = now;
    else if (now - at->free > lag(which)) at->pulled = now;
    at->high = now - at->pulled > asked.rise;
}

static void make_noise(void) {
    if (now < host.next_noise) return;
    host.next_noise = now + until_next(asked.noise);
    wire[asked.noisy].noisy_until = now + 1 + drawn((uint32_t)asked.noise_width);
}

static bool held_low(int which) {
    return asked.low_wire == which && now >= asked.low_from * MS && now < asked.low_to * MS;
}

static void show_ports(void) {
    static uint8_t shown[3] = {0xFF, 0xFF, 0xFF};
    if (shown[1] == port[1] && shown[2] == port[2]) return;
    memcpy(shown, port, sizeof shown);
    printf("%.2f p1=%02X p2=%02X\n", (double)now / US, port[1], port[2]);
}

static void world_step(void) {
    now++;
    while (pending && writes[0].at <= now) {
        port[writes[0].port] = writes[0].value;
        memmove(writes, writes + 1, (size_t)--pending * sizeof *writes);
    }
    if (asked.watch) show_ports();
    wire_step(CLOCK, !(port[2] & 1) || host.clock || held_low(CLOCK));
    wire_step(DATA, !(port[2] & 2) || host.data || held_low(DATA));
    if (asked.pins_only) return;
    if (asked.noise) make_noise();
    if (asked.keys) type_step();
    if (asked.spikes) spike_step();
    host_step();
}

static Time sooner(Time a, Time b) { return b > now && b < a ? b : a; }

// The next time at which something may change, or the one that is given. What is due at once is due in the next step.
static Time next_event(Time at) {
    if (asked.low_wire >= 0) return now + 1;
    if (pending) at = sooner(at, writes[0].at > now ? writes[0].at : now + 1);
    for (int i = 0; i < 2; i++) {
        at = sooner(at, wire[i].noisy_until);
        if (wire[i].pulls) at = sooner(at, wire[i].free + lag(i) + 1);
        if (!wire[i].pulls && !wire[i].high) at = sooner(at, wire[i].pulled + asked.rise + 1);
    }
    if (asked.pins_only) return at;
    Time due[] = {host.until, host.until - 5 * US, host.sample_at, host.cut_at, host.next_request, host.next_inhibit, host.next_noise,
                  next_key, asked.spikes ? next_spike : FOREVER, host.awaits ? host.reply_by : FOREVER,
                  asked.polling ? host.next_poll : FOREVER};
    for (size_t i = 0; i < sizeof due / sizeof *due; i++) at = sooner(at, due[i]);
    return at;
}

static void run_to(Time at) {
    bool quiet = false; // nothing has changed in the last step
    while (now < at) {
        if (quiet) now = next_event(at) - 1;
        for (int i = 0; i < 2; i++) {
            if (!wire[i].pulls) wire[i].free = now;
            else if (now - wire[i].free > lag(i)) wire[i].pulled = now;
        }
        Host before = host;
        bool was[] = {wire[CLOCK].high, wire[DATA].high, wire[CLOCK].pulls, wire[DATA].pulls};
        world_step();
        bool is[] = {wire[CLOCK].high, wire[DATA].high, wire[CLOCK].pulls, wire[DATA].pulls};
        quiet = !memcmp(&before, &host, sizeof host) && !memcmp(was, is, sizeof was);
    }
}

static uint8_t rows(void) {
    unsigned column = port[1] & 15;
    uint8_t low = 0;
    if (asked.press >= 0) key[asked.press & 127] = now >= asked.press_at * MS && now < asked.release_at * MS;
    for (unsigned row = 0; row < 8 && column < 12; row++) low |= (uint8_t)(is_closed((int)column * 8 + (int)row) << row);
    return (uint8_t)~low;
}

// ------------------------------------------------------------------------------------------------ the processor
typedef struct {
    uint8_t ram[128], a, t, sp, latch[3]; // latches of the bus, port 1 and port 2
    unsigned pc, prescaler;
    bool c, ac, f0, f1, bank, mb, flag, request, runs, enabled, in_service;
    Time request_at, entry_late;
} Chip;
static Chip chip = {.latch = {0xFF, 0xFF, 0xFF}};
static Time last_entry, longest_tick; // from one interrupt's entry to the next
static Time x; // the cycle in which the instruction began, in tenths

static uint8_t psw(void) { return (uint8_t)(chip.c << 7 | chip.ac << 6 | chip.f0 << 5 | chip.bank << 4 | 8 | chip.sp); }
static void put_high_psw(uint8_t byte) {
    chip.c = byte >> 7; chip.ac = byte >> 6 & 1; chip.f0 = byte >> 5 & 1; chip.bank = byte >> 4 & 1;
}
static uint8_t fetched(void) {
    uint8_t byte = rom[chip.pc & 0x7FF];
    chip.pc = (chip.pc & 0x800) | ((chip.pc + 1) & 0x7FF);
    return byte;
}
static void call(unsigned place) {
    chip.ram[8 + 2 * chip.sp] = (uint8_t)chip.pc;
    chip.ram[9 + 2 * chip.sp] = (uint8_t)((psw() & 0xF0) | chip.pc >> 8);
    chip.sp = (chip.sp + 1) & 7;
    chip.pc = place;
}
static uint8_t come_back(void) {
    chip.sp = (chip.sp - 1) & 7;
    uint8_t high = chip.ram[9 + 2 * chip.sp];
    chip.pc = chip.ram[8 + 2 * chip.sp] | (unsigned)(high & 15) << 8;
    return high;
}
static void branch(bool taken) {
    unsigned page = chip.pc & 0xF00;
    uint8_t low = fetched();
    if (taken) chip.pc = page | low;
}
static void add(unsigned value, unsigned carry) {
    chip.ac = (chip.a & 15) + (value & 15) + carry > 15;
    chip.c = chip.a + value + carry > 255;
    chip.a = (uint8_t)(chip.a + value + carry);
}
static void adjust(void) {
    unsigned sum = chip.a;
    if ((sum & 15) > 9 || chip.ac) sum += 6;
    if ((sum & 0xFF) >> 4 > 9 || chip.c || sum > 255) { sum += 0x60; chip.c = true; }
    chip.a = (uint8_t)sum;
}
static Time computed, due; // of a chip of today: when this step is computed, and when the next one is due
enum { RISE = 14, MOST_LATE = 80 }; // as in firmware/main.c: 3.5 microseconds, and eight cycles
static bool lets_go;       // this step lets a wire go

static void put_port(unsigned which, uint8_t value, Time at) {
    run_to(x); // earlier writes are done, but for one of the instruction before
    lets_go |= which == 2 && ~chip.latch[2] & value & 3;
    if (asked.port) at = computed;
    chip.latch[which] = value;
    int place = pending++;
    for (; place && writes[place - 1].at > at; place--) writes[place] = writes[place - 1];
    writes[place] = (Write){at, (uint8_t)which, value};
}
static bool pin(int which) {
    if (!asked.port) run_to(x + CYCLE / 2 + asked.look);
    return wire[which].high;
}
static uint8_t read_port(unsigned which) {
    if (!asked.port) run_to(x + CYCLE + CYCLE / 2 + asked.ins);
    return which ? chip.latch[which] : rows();
}

// The operation of a first byte's high digit on A and a value.
static void operate(unsigned digit, uint8_t value) {
    switch (digit) {
    case 0: case 6: add(value, 0); break;
    case 1: case 7: add(value, chip.c); break;
    case 4: chip.a |= value; break;
    case 5: chip.a &= value; break;
    case 0xD: chip.a ^= value; break;
    default: chip.a = value; break;
    }
}

static bool is_long(uint8_t b) { // two cycles?
    static const uint8_t singles[] = {
        0x02, 0x03, 0x08, 0x09, 0x0A, 0x13, 0x16, 0x23, 0x26, 0x36, 0x39, 0x3A, 0x43, 0x46, 0x53, 0x56, 0x76, 0x80, 0x81, 0x83, 0x86,
        0x88, 0x89, 0x8A, 0x90, 0x91, 0x93, 0x96, 0x98, 0x99, 0x9A, 0xA3, 0xB0, 0xB1, 0xB3, 0xB6, 0xC6, 0xD3, 0xE3, 0xE6, 0xF6};
    bool jumps = (b & 15) == 4 || (b & 0x1F) == 0x12 || (b & 0xF8) == 0xE8;
    bool expander = (b & 0x0C) == 0x0C && (b >> 4 == 0 || b >> 4 == 3 || b >> 4 == 8 || b >> 4 == 9);
    return jumps || expander || (b & 0xF8) == 0xB8 || memchr(singles, b, sizeof singles);
}

// The rows that work on a cell: a register, or what R0 or R1 points at.
static bool on_cell(uint8_t b) {
    static const uint16_t digits = 1 << 1 | 1 << 2 | 1 << 4 | 1 << 5 | 1 << 6 | 1 << 7 | 1 << 10 | 1 << 11 | 1 << 13 | 1 << 15;
    unsigned digit = b >> 4;
    bool direct = b & 8, pointed = (b & 0xE) == 0;
    uint8_t *bank = chip.ram + (chip.bank ? 24 : 0);
    if (!direct && !pointed) return false;
    uint8_t *cell = direct ? bank + (b & 7) : chip.ram + (bank[b & 1] & 127);
    if (digit == 3 && pointed) {
        uint8_t a = chip.a, byte = *cell;
        chip.a = (uint8_t)((a & 0xF0) | (byte & 15));
        *cell = (uint8_t)((byte & 0xF0) | (a & 15));
        return true;
    }
    if (direct && digit == 12) { --*cell; return true; }
    if (direct && digit == 14) { branch(--*cell != 0); return true; }
    if (!(digits >> digit & 1)) return false;
    switch (digit) {
    case 1: ++*cell; break;
    case 2: { uint8_t a = chip.a; chip.a = *cell; *cell = a; break; }
    case 10: *cell = chip.a; break;
    case 11: *cell = fetched(); break;
    default: operate(digit, *cell); break;
    }
    return true;
}

static void jump(uint8_t b, bool calls) {
    uint8_t low = fetched();
    unsigned place = (unsigned)b >> 5 << 8 | low | (chip.mb && !chip.in_service ? 0x800 : 0);
    if (calls) call(place); else chip.pc = place;
}

static bool execute(uint8_t b) { // whether the byte is an instruction
    if (on_cell(b)) return true;
    if ((b & 0x1F) == 0x04 || (b & 0x1F) == 0x14) { jump(b, b & 0x10); return true; }
    if ((b & 0x1F) == 0x12) { branch(chip.a >> (b >> 5) & 1); return true; }
    Time first = x + CYCLE + asked.outl, second = x + 2 * CYCLE + asked.anl;
    switch (b) {
    case 0x00: case 0x05: case 0x15: case 0x45: case 0x75: case 0x90: case 0x91: break;
    case 0x80: case 0x81: chip.a = 0xFF; break;
    case 0x0C: case 0x0D: case 0x0E: case 0x0F: chip.a = 0x0F; break;
    case 0x3C: case 0x3D: case 0x3E: case 0x3F: case 0x8C: case 0x8D: case 0x8E: case 0x8F:
    case 0x9C: case 0x9D: case 0x9E: case 0x9F: break;
    case 0x02: put_port(0, chip.a, first); break;
    case 0x39: put_port(1, chip.a, first); break;
    case 0x3A: put_port(2, chip.a, first); break;
    case 0x08: case 0x09: case 0x0A: chip.a = read_port(b & 3); break;
    case 0x88: case 0x89: case 0x8A: put_port(b & 3, chip.latch[b & 3] | fetched(), second); break;
    case 0x98: case 0x99: case 0x9A: put_port(b & 3, chip.latch[b & 3] & fetched(), second); break;
    case 0x25: chip.enabled = true; break;
    case 0x35: chip.enabled = chip.request = false; break;
    case 0x07: chip.a--; break;
    case 0x17: chip.a++; break;
    case 0x27: chip.a = 0; break;
    case 0x37: chip.a = (uint8_t)~chip.a; break;
    case 0x47: chip.a = (uint8_t)(chip.a << 4 | chip.a >> 4); break;
    case 0x57: adjust(); break;
    case 0x67: { bool out = chip.a & 1; chip.a = (uint8_t)(chip.a >> 1 | chip.c << 7); chip.c = out; break; }
    case 0x77: chip.a = (uint8_t)(chip.a >> 1 | chip.a << 7); break;
    case 0xE7: chip.a = (uint8_t)(chip.a << 1 | chip.a >> 7); break;
    case 0xF7: { bool out = chip.a >> 7; chip.a = (uint8_t)(chip.a << 1 | chip.c); chip.c = out; break; }
    case 0x97: chip.c = false; break;
    case 0xA7: chip.c = !chip.c; break;
    case 0x85: chip.f0 = false; break;
    case 0x95: chip.f0 = !chip.f0; break;
    case 0xA5: chip.f1 = false; break;
    case 0xB5: chip.f1 = !chip.f1; break;
    case 0xC5: chip.bank = false; break;
    case 0xD5: chip.bank = true; break;
    case 0xE5: chip.mb = false; break;
    case 0xF5: chip.mb = true; break;
    case 0xC7: chip.a = psw(); break;
    case 0xD7: put_high_psw(chip.a); chip.sp = chip.a & 7; break;
    case 0x42: chip.a = chip.t; break;
    case 0x62: chip.t = chip.a; break;
    case 0x55: chip.runs = true; chip.prescaler = 0; break;
    case 0x65: chip.runs = false; break;
    case 0x83: come_back(); break;
    case 0x93: put_high_psw(come_back()); chip.in_service = false; break;
    case 0xA3: chip.a = rom[((chip.pc & 0xF00) | chip.a) & 0x7FF]; break;
    case 0xB3: chip.pc = (chip.pc & 0xF00) | rom[((chip.pc & 0xF00) | chip.a) & 0x7FF]; break;
    case 0xE3: chip.a = rom[0x300 | chip.a]; break;
    case 0x16: { bool set = chip.flag; chip.flag = false; branch(set); break; }
    case 0x26: branch(!pin(CLOCK)); break;
    case 0x36: branch(pin(CLOCK)); break;
    case 0x46: branch(!pin(DATA)); break;
    case 0x56: branch(pin(DATA)); break;
    case 0x76: branch(chip.f1); break;
    case 0x86: branch(false); break;
    case 0x96: branch(chip.a != 0); break;
    case 0xC6: branch(chip.a == 0); break;
    case 0xB6: branch(chip.f0); break;
    case 0xE6: branch(!chip.c); break;
    case 0xF6: branch(chip.c); break;
    case 0x03: case 0x13: case 0x43: case 0x53: case 0xD3: case 0x23: operate(b >> 4, fetched()); break;
    default: return false;
    }
    return true;
}

static void count(unsigned cycles, bool ran) {
    if (!ran || !chip.runs) return;
    chip.prescaler += cycles;
    if (chip.prescaler < 32) return;
    chip.prescaler -= 32;
    if (++chip.t) return;
    chip.flag = true;
    if (!chip.enabled || chip.request) return;
    chip.request = true;
    chip.request_at = asked.port ? x : x + (Time)cycles * CYCLE;
    chip.entry_late = CYCLE * (asked.entry_from + drawn((uint32_t)(asked.entry_to - asked.entry_from + 1)));
}

// By how much this step is held up, now that it is so late: never by more than to `stall` cycles.
static Time held_up(Time late) {
    Time most = CYCLE * asked.stall - (late > 0 ? late : 0);
    return most > 0 && !drawn((uint32_t)asked.stall_in) ? 1 + drawn((uint32_t)most) : 0;
}

// When a chip of today begins the next step.
static Time next_step(unsigned cycles) {
    due += (Time)cycles * CYCLE;
    Time end = computed + held_up(computed - due);
    if (end > due + MOST_LATE) due = end;
    Time next = end > due ? end : due;
    if (lets_go && computed + RISE > next) next = computed + RISE;
    return next;
}

static bool step(void) { // whether there was an instruction
    bool ran = chip.runs;
    unsigned cycles = 2;
    lets_go = false;
    if (asked.port) {
        run_to(x);
        computed = x + asked.compute + held_up(x - due);
    }
    if (chip.request && chip.enabled && !chip.in_service && x >= chip.request_at + chip.entry_late) {
        chip.request = false;
        if (last_entry && x - last_entry > longest_tick) longest_tick = x - last_entry;
        last_entry = x;
        call(7);
        chip.in_service = true;
    } else {
        uint8_t b = fetched();
        cycles = is_long(b) ? 2 : 1;
        if (!execute(b)) return false;
    }
    count(cycles, ran);
    x = asked.port ? next_step(cycles) : x + (Time)cycles * CYCLE;
    return true;
}

static bool run_chip(Time length) { // whether it came to the end
    Time end = x + length;
    while (x < end)
        if (!step()) { run_to(end); return false; }
    run_to(end);
    return true;
}

// ------------------------------------------------------------------------------------------------ what is tried
static unsigned past_the_program(void) { // a place behind which there are zeros up to the end of memory
    unsigned last = 2048;
    while (last && !rom[last - 1]) last--;
    return last + drawn(2048 - last);
}

static void press_all(void) {
    for (int place = 0; place < PLACES; place++) key[place] = rom[0x300 + place] != 0;
    run_chip(100 * MS);
    memset(key, 0, sizeof key);
}

static void upset(void) {
    if (asked.all_keys) { press_all(); return; }
    for (long steps = 100000; steps && chip.in_service != (bool)asked.in_service; steps--) if (!step()) return;
    for (long steps = drawn(asked.in_service ? 150 : 20); steps && chip.in_service == (bool)asked.in_service; steps--) step();
    if (asked.scramble) {
        for (unsigned cell = 0; cell < 128; cell++) chip.ram[cell] = (uint8_t)drawn(256);
        chip.a = (uint8_t)drawn(256);
        chip.t = (uint8_t)drawn(256);
        chip.prescaler = drawn(32);
        chip.sp = (uint8_t)drawn(8);
        put_high_psw((uint8_t)drawn(256));
        chip.f1 = drawn(2);
        chip.mb = drawn(2);
        chip.flag = drawn(2);
        chip.in_service = drawn(2);
        chip.enabled = drawn(2);
        chip.runs = drawn(2);
    }
    if (asked.flip_bit) chip.ram[asked.flip_bit > 0 ? asked.flip_bit & 127 : drawn(128)] ^= (uint8_t)(1 << drawn(8));
    chip.bank ^= asked.flip_bank;
    chip.in_service ^= asked.flip_service;
    chip.runs &= !asked.stop_timer;
    chip.enabled &= !asked.stop_interrupt;
    if (asked.place == -2) chip.pc = drawn(2048);
    else if (asked.place == -3) chip.pc = past_the_program();
    else if (asked.place >= 0) chip.pc = (unsigned)asked.place & 0x7FF;
}

// After an upset: does a key that is pressed and let go give its bytes, and is EE echoed?
static bool works_again(void) {
    if (asked.reset) {
        run_chip(100 * MS);
        host.wants = true;
        host.byte = 0xFF;
    }
    run_chip(1500 * MS);
    counted = (Counted){0};
    first_due = last_due;
    int place = first_key();
    key[place] = true;
    expect(rom[0x300 + place]);
    run_chip(50 * MS);
    key[place] = false;
    expect(0xF0);
    expect(rom[0x300 + place]);
    run_chip(50 * MS);
    host.wants = true;
    host.byte = 0xEE;
    run_chip(50 * MS);
    return first_due == last_due && counted.lost == 0 && counted.echoes == 1;
}

static int trace_steps(void) { // no pins, no time: the processor alone, as other cores have it
    asked.pins_only = 1;
    for (long left = asked.trace; left; left--) {
        printf("%03X %02X %02X %02X %u %d%d%d%d%d%d%d %02X %02X\n", chip.pc, chip.a, psw(), chip.t, chip.prescaler, chip.f1, chip.mb,
               chip.flag, chip.request, chip.runs, chip.enabled, chip.in_service, chip.latch[1], chip.latch[2]);
        pending = 0;
        if (!step()) { puts("stuck"); break; }
        now = x;
    }
    return 0;
}

static int fail(const char *what, const char *which) {
    fprintf(stderr, "chip: %s: %s\n", which, what);
    return 2;
}

static bool read_hex(const char *path) {
    FILE *file = fopen(path, "r");
    if (!file) return false;
    char line[600];
    bool ended = false;
    while (!ended && fgets(line, sizeof line, file)) {
        unsigned length, place, kind;
        if (sscanf(line, ":%2x%4x%2x", &length, &place, &kind) != 3 || strlen(line) < 11 + 2 * length) break;
        ended = kind == 1;
        for (unsigned i = 0; i < length && kind == 0; i++) {
            unsigned byte;
            if (sscanf(line + 9 + 2 * i, "%2x", &byte) == 1 && place + i < 2048) rom[place + i] = (uint8_t)byte;
        }
    }
    fclose(file);
    return ended;
}

static bool ask(char *word) {
    char *value = strchr(word, '=');
    if (!value) return false;
    *value++ = 0;
    for (size_t i = 0; i < sizeof words / sizeof *words; i++)
        if (!strcmp(words[i].name, word)) { *words[i].field = atol(value) * words[i].unit; return true; }
    return false;
}

int main(int argc, char **argv) {
    if (argc < 2) return fail("words are IMAGE NAME=NUMBER ..", "words");
    if (!read_hex(argv[1])) return fail("can't be read, or is no HEX file", argv[1]);
    for (int i = 2; i < argc; i++)
        if (!ask(argv[i])) return fail("no such word", argv[i]);
    if (asked.debounce) rom[0x3F2] = 1;
    noise_state = 0x9E3779B97F4A7C15ULL * (uint64_t)(asked.seed + 1);
    drawn(2);
    memset(chip.ram, (int)asked.ram, sizeof chip.ram);
    host.sample_at = host.until = host.cut_at = FOREVER;
    if (asked.trace) return trace_steps();
    if (!asked.pins_only && first_key() == PLACES) return fail("it has no codes of keys at 300 to 35F", argv[1]);
    host.next_request = 500 * MS + until_next(asked.requests);
    host.next_inhibit = until_next(asked.inhibits);
    host.next_noise = 500 * MS + until_next(asked.noise);
    next_key = 500 * MS;
    next_spike = 500 * MS + until_next(asked.spikes);
    expect(0xAA); // the power-on test has ended well
    if (!asked.upset) {
        bool whole = run_chip(asked.length * MS);
        if (asked.watch) return whole ? 0 : 1;
        asked.requests = asked.inhibits = asked.noise = asked.spikes = asked.keys = 0; // then what is still on its way comes
        host.next_request = host.next_inhibit = FOREVER;
        whole &= run_chip(50 * MS);
        let_go(); // the key is seen by now, and doesn't repeat yet
        whole &= run_chip(250 * MS);
        counted.lost += last_due - first_due;
        printf("ran=%d started=%d requests=%ld collided=%ld garbled=%ld codes=%ld lost=%ld extra=%ld resets=%ld refused=%ld echoes=%ld "
               "resent=%ld cuts=%ld\n", whole, started, counted.requests, counted.collided, counted.garbled, counted.codes, counted.lost,
               counted.extra, counted.resets, counted.refused, counted.echoes, counted.resent, counted.cuts);
        return 0;
    }
    run_chip(500 * MS + drawn(20 * MS));
    upset();
    bool works = works_again();
    printf("works=%d longest=%ld\n", works, (long)(longest_tick / US));
    return 0;
}
