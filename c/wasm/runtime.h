/* What a module of WebAssembly needs as C: its memory, its stack, and its operations, by the names that wasm2c gives them.
   Needs C99 and the C library's memory and string functions. Numbers in the module's memory have their lowest byte first,
   on every machine. */
#include <math.h>
#include <setjmp.h>
#include <stddef.h>
#include <stdint.h>
#include <stdlib.h>
#include <string.h>

/* The translation has parameters and results that nothing uses. */
#ifdef __GNUC__
#pragma GCC diagnostic ignored "-Wunused-parameter"
#pragma GCC diagnostic ignored "-Wunused-value"
#pragma GCC diagnostic ignored "-Wunused-function"
#pragma GCC diagnostic ignored "-Wunused-label"
#endif

typedef uint8_t u8;
typedef int8_t s8;
typedef uint16_t u16;
typedef int16_t s16;
typedef uint32_t u32;
typedef int32_t s32;
typedef uint64_t u64;
typedef int64_t s64;
typedef double f64; /* only `toml` has numbers with a point, and no field of a layout is one */

/* A module with its memory. The memory begins at an address above 0: at the lowest one of the module's stack, which grows
   down. Below the stack the module has nothing. */
typedef struct {
    uintptr_t origin;  /* an address of the module and this are the address of the byte */
    u64 sp;            /* the module's stack pointer */
    u64 lowest, end;   /* its lowest address, and the first one after its memory */
    u8 *block;         /* the memory, if it may grow */
    jmp_buf *overflow; /* who is asked if the stack has no room */
} machine;

typedef void (*function)(void);
typedef struct {
    u32 type;
    function at;
} entry;

enum { PAGE = 65536 };

#define AT(m, address) ((u8 *)((m)->origin + (uintptr_t)(address)))

/* With KBD48_CHECKED each access is checked, for tests: the module makes none outside its memory. */
#ifdef KBD48_CHECKED
#define CHECK(m, address, size) \
    if ((u64)(address) < (m)->lowest || (u64)(address) + (size) > (m)->end) abort()
#else
#define CHECK(m, address, size) (void)(m)
#endif

/* A function that may call itself again needs so many bytes of stack up to the next one that does. */
#define ROOM(m, bytes) \
    if ((m)->sp < (m)->lowest + (bytes)) longjmp(*(m)->overflow, 1)

#if defined(__i386__) || defined(__x86_64__) || defined(_M_IX86) || defined(_M_X64) || defined(_M_ARM64) || \
    (defined(__BYTE_ORDER__) && __BYTE_ORDER__ == __ORDER_LITTLE_ENDIAN__)
#define LOWEST_BYTE_FIRST 1
#else
#define LOWEST_BYTE_FIRST 0
#endif

#if LOWEST_BYTE_FIRST
#define READ(type, value, from) memcpy(&value, from, sizeof value)
#define WRITE(type, value, to) memcpy(to, &value, sizeof value)
#else
static inline u64 number_at(const u8 *from, unsigned size) {
    u64 number = 0;
    while (size-- > 0) number = number << 8 | from[size];
    return number;
}
static inline void set_number(u8 *to, u64 number, unsigned size) {
    for (unsigned i = 0; i < size; i++, number >>= 8) to[i] = (u8)number;
}
#define READ(type, value, from) value = (type)number_at(from, sizeof value)
#define WRITE(type, value, to) set_number(to, value, sizeof value)
#endif

#define LOAD(name, stored, widened, result) \
    static inline result name(const machine *m, u64 address) { \
        stored value; \
        CHECK(m, address, sizeof value); \
        READ(stored, value, AT(m, address)); \
        return (result)(widened)value; \
    }
#define STORE(name, stored, given) \
    static inline void name(const machine *m, u64 address, given number) { \
        stored value = (stored)number; \
        CHECK(m, address, sizeof value); \
        WRITE(stored, value, AT(m, address)); \
    }
LOAD(i32_load, u32, u32, u32)
LOAD(i64_load, u64, u64, u64)
LOAD(i32_load8_s, s8, s32, u32)
LOAD(i64_load8_s, s8, s64, u64)
LOAD(i32_load8_u, u8, u32, u32)
LOAD(i64_load8_u, u8, u64, u64)
LOAD(i32_load16_s, s16, s32, u32)
LOAD(i64_load16_s, s16, s64, u64)
LOAD(i32_load16_u, u16, u32, u32)
LOAD(i64_load16_u, u16, u64, u64)
LOAD(i64_load32_s, s32, s64, u64)
LOAD(i64_load32_u, u32, u64, u64)
STORE(i32_store, u32, u32)
STORE(i64_store, u64, u64)
STORE(i32_store8, u8, u32)
STORE(i64_store8, u8, u64)
STORE(i32_store16, u16, u32)
STORE(i64_store16, u16, u64)
STORE(i64_store32, u32, u64)

static inline f64 f64_reinterpret_i64(u64 bits) {
    f64 number;
    memcpy(&number, &bits, sizeof number);
    return number;
}
static inline u64 i64_reinterpret_f64(f64 number) {
    u64 bits;
    memcpy(&bits, &number, sizeof bits);
    return bits;
}
static inline f64 f64_load(const machine *m, u64 address) { return f64_reinterpret_i64(i64_load(m, address)); }
static inline void f64_store(const machine *m, u64 address, f64 number) { i64_store(m, address, i64_reinterpret_f64(number)); }

static inline void memory_fill(const machine *m, u32 to, u32 byte, u32 size) {
    CHECK(m, to, size);
    memset(AT(m, to), (int)byte, size);
}
static inline void memory_copy(const machine *m, const machine *same, u32 to, u32 from, u32 size) {
    CHECK(m, to, size);
    CHECK(m, from, size);
    memmove(AT(m, to), AT(same, from), size);
}

static inline u32 pages_of(const machine *m) { return (u32)(m->end / PAGE); }

/* More pages, filled with 0. Returns how many there were, or -1 if there is no memory. */
static u32 memory_grow(machine *m, u32 more) {
    u32 pages = pages_of(m);
    size_t kept = (size_t)(m->end - m->lowest);
    u64 end = m->end + (u64)more * PAGE;
    if (!m->block || end > (u64)PAGE * PAGE || end - m->lowest > SIZE_MAX / 2) return (u32)-1;
    u8 *block = calloc(1, (size_t)(end - m->lowest));
    if (!block) return (u32)-1;
    memcpy(block, m->block, kept);
    free(m->block);
    m->block = block;
    m->origin = (uintptr_t)block - (uintptr_t)m->lowest;
    m->end = end;
    return pages;
}

#if defined(__GNUC__) && !defined(__TINYC__)
#define I32_CLZ(x) ((x) ? (u32)__builtin_clz(x) : 32)
#define I64_CLZ(x) ((x) ? (u64)__builtin_clzll(x) : 64)
#define I32_CTZ(x) ((x) ? (u32)__builtin_ctz(x) : 32)
#define I64_CTZ(x) ((x) ? (u64)__builtin_ctzll(x) : 64)
#else
static u32 zeros_above(u64 x, u32 width) {
    u32 count = 0;
    while (count < width && !(x >> (width - 1 - count) & 1)) count++;
    return count;
}
static u32 zeros_below(u64 x, u32 width) {
    u32 count = 0;
    while (count < width && !(x >> count & 1)) count++;
    return count;
}
#define I32_CLZ(x) zeros_above(x, 32)
#define I64_CLZ(x) (u64)zeros_above(x, 64)
#define I32_CTZ(x) zeros_below(x, 32)
#define I64_CTZ(x) (u64)zeros_below(x, 64)
#endif
#define I32_ROTL(x, y) ((x) << ((y) & 31) | (x) >> (-(y) & 31))
#define I64_ROTL(x, y) ((x) << ((y) & 63) | (x) >> (-(y) & 63))

/* The module never does any of these; a division by 0 and the like would end the program. */
static int trap(void) {
    abort();
    return 0;
}
#define UNREACHABLE trap()
#define DIV_U(x, y) ((y) || trap() ? (x) / (y) : 0)
#define REM_U(x, y) ((y) || trap() ? (x) % (y) : 0)
#define CALL_INDIRECT(table, type_of_call, number, x, ...) \
    (((x) < sizeof table / sizeof *table && table[x].at && table[x].type == (number)) || trap(), \
     ((type_of_call)table[x].at)(__VA_ARGS__))

/* A module in this memory, which is from `lowest` up to `end` in the module's addresses; `sp` is the top of its stack. */
static void begin_in(machine *m, void *memory, u64 lowest, u64 end, u64 sp) {
    m->origin = (uintptr_t)memory - (uintptr_t)lowest;
    m->sp = sp;
    m->lowest = lowest;
    m->end = end;
    m->block = NULL;
    m->overflow = NULL;
}
