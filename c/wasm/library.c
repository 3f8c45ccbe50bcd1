/* The calls of kbd48.h. A handle that is open points to a machine of its own: the module with its memory. So handles have
   nothing in common, and two threads may use two of them at the same time.

   A call that reads a text needs much more stack and memory than the others. So it is made in a machine that is given back
   when the call ends; the keyboard that it opened is saved there, and loaded in a machine of the usual size. */

/* What a call passes by pointer is between the stack and the data: the module's own handle first, which stays there. */
enum {
    STACK = 24 * 1024,
    STACK_FOR_TEXTS = 256 * 1024,
    ONE = STACK_TOP - 64, /* what a call returns, or its first of them */
    TWO = ONE + 32,       /* its second */
    THREE = TWO + 8,      /* its third */
    BYTES = ONE - 3088,   /* a queue, a name, or a saved keyboard */
    HANDLE = BYTES - 16,
    LOWEST = HANDLE - STACK,
    LOWEST_FOR_TEXTS = HANDLE - STACK_FOR_TEXTS,
    MOST_TEXT = 65537 /* a byte more than the longest layout: a text of more bytes is refused for its length */
};

/* What must be so for all of that. */
HOLDS(stack_is_large_enough, (long)MOST_NEEDED <= (long)STACK);
HOLDS(stack_for_texts_is_large_enough, (long)MOST_NEEDED_FOR_TEXTS <= (long)STACK_FOR_TEXTS);
HOLDS(stack_is_aligned, HANDLE % 16 == 0);
HOLDS(a_saved_one_fits, KBD48_SAVED + 1 <= ONE - BYTES && sizeof(kbd48_keys) <= ONE - BYTES);
HOLDS(queues_are_alike_everywhere, sizeof(kbd48_keys) == 2672 && offsetof(kbd48_keys, edges) == 8 && sizeof(kbd48_pushed) == 16);
HOLDS(items_are_alike_everywhere, sizeof(kbd48_item) == 16 && offsetof(kbd48_item, value) == 10);
HOLDS(others_are_alike_everywhere, sizeof(kbd48_processor) == 22 && sizeof(kbd48_spot) == 4 && sizeof(kbd48_fault) == 8);

static void replaced(kbd48 *handle, machine *m) {
    unmade(handle->at);
    handle->at = m;
}

static void turn_queue(u8 *queue) {
    for (unsigned i = 0; i <= 160 && !LOWEST_BYTE_FIRST; i++) turn(queue + (i ? 16 * i - 8 : 0), 8);
}
static void put_queue(const machine *m, const kbd48_keys *queue) {
    put(m, BYTES, queue, sizeof *queue);
    turn_queue(AT(m, BYTES));
}
static void get_queue(const machine *m, kbd48_keys *queue) {
    turn_queue(AT(m, BYTES));
    get(m, BYTES, queue, sizeof *queue);
}

/* The calls without a handle take no memory. Those of a queue need no data; so says the translation. */
enum { SMALL_STACK = 64, SMALL_LOWEST = HANDLE - SMALL_STACK };
HOLDS(queues_need_no_stack, !NEED_kbd48_queue_key && !NEED_kbd48_release_all && !NEED_kbd48_queued && !NEED_kbd48_version);
HOLDS(queues_need_no_data, !DATA_kbd48_queue_key && !DATA_kbd48_release_all && !DATA_kbd48_queued && !DATA_kbd48_version);
HOLDS(names_need_little_stack, (long)NEED_kbd48_sample_key <= (long)SMALL_STACK);

typedef struct {
    machine m;
    u64 memory[(STACK_TOP - SMALL_LOWEST) / 8];
} small_machine;

static machine *small(small_machine *it) {
    begin_in(&it->m, it->memory, SMALL_LOWEST, STACK_TOP, HANDLE);
    return &it->m;
}

int32_t kbd48_version(void) {
    small_machine it;
    return (int32_t)wasm_kbd48_version(small(&it));
}

int32_t kbd48_queue_key(kbd48_keys *queue, uint64_t cycle, uint8_t place, bool down) {
    small_machine it;
    machine *m = small(&it);
    put_queue(m, queue);
    u32 status = wasm_kbd48_queue_key(m, BYTES, cycle, place, down);
    get_queue(m, queue);
    return (int32_t)status;
}

int32_t kbd48_release_all(kbd48_keys *queue, uint64_t cycle) {
    small_machine it;
    machine *m = small(&it);
    put_queue(m, queue);
    u32 status = wasm_kbd48_release_all(m, BYTES, cycle);
    get_queue(m, queue);
    return (int32_t)status;
}

/* What a help has is four bytes, each by itself. */
HOLDS(helps_are_alike_everywhere, sizeof(kbd48_help) == 4 && offsetof(kbd48_help, last) == 3);
HOLDS(helps_need_no_stack, !NEED_kbd48_help_write && !NEED_kbd48_help_read);
HOLDS(helps_need_no_data, !DATA_kbd48_help_write && !DATA_kbd48_help_read);

uint8_t kbd48_help_write(kbd48_help *help, uint8_t port, uint8_t byte) {
    small_machine it;
    machine *m = small(&it);
    put(m, ONE, help, sizeof *help);
    u32 instead = wasm_kbd48_help_write(m, ONE, port, byte);
    get(m, ONE, help, sizeof *help);
    return (uint8_t)instead;
}

bool kbd48_help_read(kbd48_help *help, uint8_t byte) {
    small_machine it;
    machine *m = small(&it);
    put(m, ONE, help, sizeof *help);
    u32 begins = wasm_kbd48_help_read(m, ONE, byte);
    get(m, ONE, help, sizeof *help);
    return begins & 1;
}

int32_t kbd48_queued(kbd48_keys *queue, uint8_t *count) {
    small_machine it;
    machine *m = small(&it);
    put_queue(m, queue);
    put(m, ONE, count, 1);
    u32 status = wasm_kbd48_queued(m, BYTES, ONE);
    get(m, ONE, count, 1);
    return (int32_t)status;
}

/* A queue and its bytes: the calls that have both need a stack, which begins below the bytes. */
enum { SAVED_KEYS = HANDLE - 1632, STACK_FOR_QUEUES = 24 * 1024, LOWEST_FOR_QUEUES = SAVED_KEYS - STACK_FOR_QUEUES };
HOLDS(a_saved_queue_fits, KBD48_SAVED_KEYS + 1 <= HANDLE - SAVED_KEYS && SAVED_KEYS % 16 == 0);
HOLDS(save_of_a_queue_has_room, (long)NEED_kbd48_save_keys <= (long)STACK_FOR_QUEUES);
HOLDS(load_of_a_queue_has_room, (long)NEED_kbd48_load_keys <= (long)STACK_FOR_QUEUES);

typedef struct {
    machine m;
    u64 memory[(END_OF_DATA - LOWEST_FOR_QUEUES) / 8 + 1];
} queue_machine;

static machine *for_queue(queue_machine *it) {
    begin_in(&it->m, it->memory, LOWEST_FOR_QUEUES, END_OF_DATA, SAVED_KEYS);
    load_data(&it->m);
    return &it->m;
}

int32_t kbd48_save_keys(kbd48_keys *queue, uint8_t *buffer, size_t length) {
    queue_machine it;
    machine *m = for_queue(&it);
    put_queue(m, queue);
    u32 status = wasm_kbd48_save_keys(m, BYTES, SAVED_KEYS, length < KBD48_SAVED_KEYS ? length : KBD48_SAVED_KEYS);
    if (status == KBD48_DONE) get(m, SAVED_KEYS, buffer, KBD48_SAVED_KEYS);
    return (int32_t)status;
}

int32_t kbd48_load_keys(kbd48_keys *queue, const uint8_t *bytes, size_t length) {
    queue_machine it;
    machine *m = for_queue(&it);
    if (length > KBD48_SAVED_KEYS) length = KBD48_SAVED_KEYS + 1; /* refused for its length, however long */
    put_queue(m, queue);
    put(m, SAVED_KEYS, bytes, length);
    u32 status = wasm_kbd48_load_keys(m, BYTES, SAVED_KEYS, length);
    if (status == KBD48_DONE) get_queue(m, queue);
    return (int32_t)status;
}

int32_t kbd48_sample_key(const uint8_t *name, size_t length, uint8_t *place) {
    u64 memory[(END_OF_DATA - SMALL_LOWEST) / 8 + 1];
    machine m;
    u64 many = length < ONE - BYTES ? length : ONE - BYTES; /* no key has so long a name */
    begin_in(&m, memory, SMALL_LOWEST, END_OF_DATA, HANDLE);
    load_data(&m);
    put(&m, BYTES, name, (size_t)many);
    put(&m, ONE, place, 1);
    u32 status = wasm_kbd48_sample_key(&m, BYTES, many, ONE);
    get(&m, ONE, place, 1);
    return (int32_t)status;
}

/* A text in the module's memory, or 0 if there is none for it. */
static u64 put_text(machine *m, const uint8_t *text, size_t *length) {
    if (*length > MOST_TEXT) *length = MOST_TEXT;
    u64 at = wasm_page_take(m, (u64)*length + 1);
    if (at) put(m, at, text, *length);
    return at;
}

int32_t kbd48_load(kbd48 *handle, const uint8_t *bytes, size_t length) {
    machine *m = made(LOWEST, HANDLE);
    if (!m) return KBD48_NO_MEMORY;
    if (length > KBD48_SAVED) length = KBD48_SAVED + 1; /* refused for its length, however long */
    put(m, BYTES, bytes, length);
    int32_t status = (int32_t)wasm_kbd48_load(m, HANDLE, BYTES, length);
    if (status == KBD48_DONE) replaced(handle, m);
    else unmade(m);
    return status;
}

/* Saves the keyboard of a machine at BYTES. */
static int32_t saved_in(machine *m, size_t length) {
    jmp_buf overflow;
    m->overflow = &overflow;
    if (setjmp(overflow)) {
        m->sp = HANDLE;
        return KBD48_NO_MEMORY;
    }
    return (int32_t)wasm_kbd48_save(m, HANDLE, BYTES, length);
}

typedef u32 opening(machine *, u64, u64, u64, u64);

/* Opens a keyboard in a machine. If the stack has no room, the status is that of no memory. */
static int32_t opened_in(machine *m, opening *call, const uint8_t *text, size_t length, kbd48_fault *fault) {
    jmp_buf overflow;
    u64 at = put_text(m, text, &length);
    if (!at) return KBD48_NO_MEMORY;
    m->overflow = &overflow;
    if (setjmp(overflow)) return KBD48_NO_MEMORY;
    put_number(m, ONE, &fault->position, 4);
    put_number(m, ONE + 4, &fault->number, 4);
    int32_t status = (int32_t)call(m, at, length, HANDLE, ONE);
    get_number(m, ONE, &fault->position, 4);
    get_number(m, ONE + 4, &fault->number, 4);
    return status;
}

static int32_t opened(opening *call, const uint8_t *text, size_t length, kbd48 *handle, kbd48_fault *fault) {
    machine *m = made(LOWEST_FOR_TEXTS, HANDLE);
    if (!m) return KBD48_NO_MEMORY;
    int32_t status = opened_in(m, call, text, length, fault);
    if (status == KBD48_DONE) status = saved_in(m, KBD48_SAVED);
    if (status == KBD48_DONE) status = kbd48_load(handle, AT(m, BYTES), KBD48_SAVED);
    unmade(m);
    return status;
}

int32_t kbd48_open_layout(const uint8_t *text, size_t length, kbd48 *handle, kbd48_fault *fault) {
    return opened(wasm_kbd48_open_layout, text, length, handle, fault);
}
int32_t kbd48_open_hex(const uint8_t *text, size_t length, kbd48 *handle, kbd48_fault *fault) {
    return opened(wasm_kbd48_open_hex, text, length, handle, fault);
}
int32_t kbd48_open_ready_layout(const uint8_t *text, size_t length, kbd48 *handle, kbd48_fault *fault) {
    return opened(wasm_kbd48_open_ready_layout, text, length, handle, fault);
}
int32_t kbd48_open_ready_hex(const uint8_t *text, size_t length, kbd48 *handle, kbd48_fault *fault) {
    return opened(wasm_kbd48_open_ready_hex, text, length, handle, fault);
}

static u32 open_sample(machine *m, u64 text, u64 length, u64 handle, u64 fault) {
    (void)text, (void)length, (void)fault;
    return wasm_kbd48_open_sample(m, handle);
}
static u32 open_ready_sample(machine *m, u64 text, u64 length, u64 handle, u64 fault) {
    (void)text, (void)length, (void)fault;
    return wasm_kbd48_open_ready_sample(m, handle);
}
int32_t kbd48_open_sample(kbd48 *handle) {
    kbd48_fault fault = {0, 0};
    return opened(open_sample, (const uint8_t *)"", 0, handle, &fault);
}
int32_t kbd48_open_ready_sample(kbd48 *handle) {
    kbd48_fault fault = {0, 0};
    return opened(open_ready_sample, (const uint8_t *)"", 0, handle, &fault);
}

static int32_t layout_key_in(machine *m, u64 text, u64 length, u64 name, u64 name_length) {
    jmp_buf overflow;
    m->overflow = &overflow;
    if (setjmp(overflow)) return KBD48_NO_MEMORY;
    return (int32_t)wasm_kbd48_layout_key(m, text, length, name, name_length, ONE);
}
int32_t kbd48_layout_key(const uint8_t *text, size_t length, const uint8_t *name, size_t name_length, uint8_t *place) {
    int32_t status = KBD48_NO_MEMORY;
    machine *m = made(LOWEST_FOR_TEXTS, HANDLE);
    if (!m) return status;
    u64 at = put_text(m, text, &length), name_at = at ? put_text(m, name, &name_length) : 0;
    if (name_at) {
        put(m, ONE, place, 1);
        status = layout_key_in(m, at, length, name_at, name_length);
        get(m, ONE, place, 1);
    }
    unmade(m);
    return status;
}

/* A copy is the machine with all its memory, but for the stack, on which nothing is between two calls. A machine with as much
   memory becomes the copy, and none is taken. */
int32_t kbd48_copy(kbd48 *from, kbd48 *to) {
    const machine *m = from->at;
    if (!m) return KBD48_NOT_OPEN;
    machine *there = to->at;
    if (there == m) return KBD48_DONE;
    if (there && there->end == m->end) {
        memcpy(AT(there, HANDLE), AT(m, HANDLE), (size_t)(m->end - HANDLE));
        return KBD48_DONE;
    }
    machine *copy = malloc(sizeof *copy);
    u8 *memory = copy ? malloc((size_t)(m->end - LOWEST)) : NULL;
    if (!memory) {
        free(copy);
        return KBD48_NO_MEMORY;
    }
    memset(memory, 0, HANDLE - LOWEST);
    memcpy(memory + (HANDLE - LOWEST), AT(m, HANDLE), (size_t)(m->end - HANDLE));
    begin_in(copy, memory, LOWEST, m->end, HANDLE);
    copy->block = memory;
    replaced(to, copy);
    return KBD48_DONE;
}

int32_t kbd48_close(kbd48 *handle) {
    if (!handle->at) return KBD48_NOT_OPEN;
    replaced(handle, NULL);
    return KBD48_DONE;
}

int32_t kbd48_power_on(kbd48 *handle, uint8_t fill) {
    if (!handle->at) return KBD48_NOT_OPEN;
    return (int32_t)wasm_kbd48_power_on(handle->at, HANDLE, fill);
}

int32_t kbd48_save(kbd48 *handle, uint8_t *buffer, size_t length) {
    machine *m = handle->at;
    if (!m) return KBD48_NOT_OPEN;
    int32_t status = saved_in(m, length < KBD48_SAVED ? length : KBD48_SAVED);
    if (status == KBD48_DONE) get(m, BYTES, buffer, KBD48_SAVED);
    return status;
}

int32_t kbd48_key(kbd48 *handle, uint8_t place, bool down) {
    return handle->at ? (int32_t)wasm_kbd48_key(handle->at, HANDLE, place, down) : KBD48_NOT_OPEN;
}
int32_t kbd48_write(kbd48 *handle, uint8_t port, uint8_t byte) {
    return handle->at ? (int32_t)wasm_kbd48_write(handle->at, HANDLE, port, byte) : KBD48_NOT_OPEN;
}
int32_t kbd48_bios(kbd48 *handle, bool on) {
    return handle->at ? (int32_t)wasm_kbd48_bios(handle->at, HANDLE, on) : KBD48_NOT_OPEN;
}
int32_t kbd48_flip(kbd48 *handle, uint8_t bit) {
    return handle->at ? (int32_t)wasm_kbd48_flip(handle->at, HANDLE, bit) : KBD48_NOT_OPEN;
}

/* Where a run stopped: what a run returns by its last two pointers. */
static void put_end(const machine *m, const uint64_t *passed, const kbd48_spot *spot) {
    put_number(m, ONE, passed, 8);
    put(m, TWO, spot, sizeof *spot);
    turn(AT(m, TWO), 2);
}
static void get_end(const machine *m, uint64_t *passed, kbd48_spot *spot) {
    get_number(m, ONE, passed, 8);
    turn(AT(m, TWO), 2);
    get(m, TWO, spot, sizeof *spot);
}

int32_t kbd48_run(kbd48 *handle, uint64_t cycles, bool watched, uint64_t *passed, kbd48_spot *spot) {
    machine *m = handle->at;
    if (!m) return *passed = 0, KBD48_NOT_OPEN;
    put_end(m, passed, spot);
    u32 status = wasm_kbd48_run(m, HANDLE, cycles, watched, ONE, TWO);
    get_end(m, passed, spot);
    return (int32_t)status;
}

int32_t kbd48_run_keys(kbd48 *handle, kbd48_keys *queue, uint64_t cycles, bool watched, uint64_t *passed, kbd48_spot *spot) {
    machine *m = handle->at;
    if (!m) return *passed = 0, KBD48_NOT_OPEN;
    put_queue(m, queue);
    put_end(m, passed, spot);
    u32 status = wasm_kbd48_run_keys(m, HANDLE, BYTES, cycles, watched, ONE, TWO);
    get_end(m, passed, spot);
    get_queue(m, queue);
    return (int32_t)status;
}

int32_t kbd48_run_to(kbd48 *handle, uint8_t mask, uint16_t at, uint64_t cycles, uint64_t steps, uint8_t *met,
                     uint64_t *passed, kbd48_spot *spot) {
    machine *m = handle->at;
    if (!m) return *met = 0, *passed = 0, KBD48_NOT_OPEN;
    put_end(m, passed, spot);
    put(m, THREE, met, 1);
    u32 status = wasm_kbd48_run_to(m, HANDLE, mask, at, cycles, steps, THREE, ONE, TWO);
    get(m, THREE, met, 1);
    get_end(m, passed, spot);
    return (int32_t)status;
}

/* A call that returns one thing: bytes, of which the first `number` are a number. */
typedef u32 looking(machine *, u64, u64);
static inline int32_t looked(kbd48 *handle, looking *call, void *to, size_t size, unsigned number) {
    machine *m = handle->at;
    if (!m) return KBD48_NOT_OPEN;
    put(m, ONE, to, size);
    turn(AT(m, ONE), number);
    u32 status = call(m, HANDLE, ONE);
    turn(AT(m, ONE), number);
    get(m, ONE, to, size);
    return (int32_t)status;
}
#define LOOKS(name, type, number) \
    int32_t name(kbd48 *handle, type *to) { return looked(handle, wasm_##name, to, sizeof *to, number); }
LOOKS(kbd48_read60, uint8_t, 1)
LOOKS(kbd48_status, uint8_t, 1)
LOOKS(kbd48_lights, uint8_t, 1)
LOOKS(kbd48_interrupt, bool, 1)
LOOKS(kbd48_take, uint16_t, 2)
LOOKS(kbd48_rises, uint64_t, 8)
LOOKS(kbd48_lost, uint64_t, 8)
LOOKS(kbd48_cycle, uint64_t, 8)
LOOKS(kbd48_look, kbd48_registers, 1)
LOOKS(kbd48_inside, kbd48_processor, 2)

/* An item has a second number. */
static u32 next(machine *m, u64 handle, u64 item) {
    turn(AT(m, item + 10), 2);
    u32 status = wasm_kbd48_next(m, handle, item);
    turn(AT(m, item + 10), 2);
    return status;
}
int32_t kbd48_next(kbd48 *handle, kbd48_item *item) { return looked(handle, next, item, sizeof *item, 8); }

/* A call that returns two bytes. */
typedef u32 looking_twice(machine *, u64, u64, u64);
static inline int32_t looked_twice(kbd48 *handle, looking_twice *call, void *one, void *two) {
    machine *m = handle->at;
    if (!m) return KBD48_NOT_OPEN;
    put(m, ONE, one, 1);
    put(m, TWO, two, 1);
    u32 status = call(m, HANDLE, ONE, TWO);
    get(m, ONE, one, 1);
    get(m, TWO, two, 1);
    return (int32_t)status;
}
int32_t kbd48_wires(kbd48 *handle, bool *clock, bool *data) { return looked_twice(handle, wasm_kbd48_wires, clock, data); }
int32_t kbd48_pulls(kbd48 *handle, uint8_t *keyboard, uint8_t *controller) {
    return looked_twice(handle, wasm_kbd48_pulls, keyboard, controller);
}
int32_t kbd48_waiting(kbd48 *handle, uint8_t *edges, uint8_t *words) {
    return looked_twice(handle, wasm_kbd48_waiting, edges, words);
}

/* A call that returns a byte of a number. */
typedef u32 looking_at(machine *, u64, u32, u64);
static inline int32_t looked_at(kbd48 *handle, looking_at *call, uint8_t number, uint8_t *byte) {
    machine *m = handle->at;
    if (!m) return KBD48_NOT_OPEN;
    put(m, ONE, byte, 1);
    u32 status = call(m, HANDLE, number, ONE);
    get(m, ONE, byte, 1);
    return (int32_t)status;
}
int32_t kbd48_column(kbd48 *handle, uint8_t number, uint8_t *rows) {
    return looked_at(handle, wasm_kbd48_column, number, rows);
}
int32_t kbd48_cell(kbd48 *handle, uint8_t number, uint8_t *byte) { return looked_at(handle, wasm_kbd48_cell, number, byte); }
