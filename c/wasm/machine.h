/* A module with memory of its own: it is made, filled and given back. */

#define HOLDS(name, it) typedef char name[(it) ? 1 : -1]

/* A new machine whose memory is from `lowest` on and whose stack begins at `sp`, or NULL if there is no memory. */
static machine *made(u64 lowest, u64 sp) {
    const u64 end = (u64)FIRST_PAGES * PAGE;
    machine *m = malloc(sizeof *m);
    u8 *memory = m ? calloc(1, (size_t)(end - lowest)) : NULL;
    if (!memory) {
        free(m);
        return NULL;
    }
    begin_in(m, memory, lowest, end, sp);
    m->block = memory;
    load_data(m);
    return m;
}

static void unmade(machine *m) {
    if (m) free(m->block);
    free(m);
}

/* A number goes between this machine's order of bytes and the module's, which has the lowest first. */
static void turn(void *number, unsigned size) {
#if LOWEST_BYTE_FIRST
    (void)number, (void)size;
#else
    const u16 one = 1;
    u8 *at = number, lowest;
    memcpy(&lowest, &one, 1);
    for (unsigned i = 0; !lowest && 2 * i + 1 < size; i++) {
        u8 byte = at[i];
        at[i] = at[size - 1 - i];
        at[size - 1 - i] = byte;
    }
#endif
}

/* What the caller's pointers point to goes in before a call and out after it, so a call that writes nothing leaves it. */
static void put(const machine *m, u64 at, const void *from, size_t size) { memcpy(AT(m, at), from, size); }
static void get(const machine *m, u64 at, void *to, size_t size) { memcpy(to, AT(m, at), size); }
static void put_number(const machine *m, u64 at, const void *from, unsigned size) {
    put(m, at, from, size);
    turn(AT(m, at), size);
}
static void get_number(const machine *m, u64 at, void *to, unsigned size) {
    get(m, at, to, size);
    turn(to, size);
}
