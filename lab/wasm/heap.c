/* The heap of a module without a C library: blocks of powers of two, each after a head of 16 bytes. A freed block goes
   to the list of its size. Memory grows by pages of 64 KiB. */
typedef unsigned long long u64;
typedef __SIZE_TYPE__ size_t;

enum { LEAST_ORDER = 5, ORDERS = 32, PAGE_ORDER = 16 };

/* What the library answers: whether there was memory, and where. */
typedef struct {
    u64 ok, at;
} block;

typedef struct head {
    u64 order;
    struct head *next;
} head;

extern unsigned char __heap_base;
static head *freed[ORDERS];
static u64 top;
static unsigned char nothing;

static int order_of(u64 size) {
    int order = LEAST_ORDER;
    while (order < ORDERS && ((u64)1 << order) - sizeof(head) < size) order++;
    return order;
}

/* Whether memory reaches up to here. */
static int reaches(u64 end) {
    u64 have = (u64)__builtin_wasm_memory_size(0) << PAGE_ORDER, page = (u64)1 << PAGE_ORDER;
    return end <= have || __builtin_wasm_memory_grow(0, (size_t)((end - have + page - 1) >> PAGE_ORDER)) != (size_t)-1;
}

static void *take(u64 size) {
    int order = order_of(size);
    if (order == ORDERS) return 0;
    head *found = freed[order];
    if (found) {
        freed[order] = found->next;
        return found + 1;
    }
    if (!top) top = ((u64)(size_t)&__heap_base + sizeof(head) - 1) & -(u64)sizeof(head);
    u64 end = top + ((u64)1 << order);
    if (!reaches(end)) return 0;
    found = (head *)(size_t)top;
    found->order = (u64)order;
    top = end;
    return found + 1;
}

/* A block is at a multiple of 16, the greatest alignment that the crates ask for. */
block rattle_alloc(u64 size, u64 align) {
    void *at = align <= sizeof(head) ? take(size ? size : align) : 0;
    return (block){at != 0, (u64)(size_t)(at ? at : &nothing)};
}

void rattle_dealloc(void *at) {
    head *given = (head *)at - 1;
    given->next = freed[given->order];
    freed[given->order] = given;
}

block rattle_realloc(void *old, u64 kept, u64 size, u64 align) {
    head *held = (head *)old - 1;
    if (size + sizeof(head) <= (u64)1 << held->order) return (block){1, (u64)(size_t)old};
    block made = rattle_alloc(size, align);
    if (!made.ok) return made;
    __builtin_memcpy((void *)(size_t)made.at, old, kept);
    rattle_dealloc(old);
    return made;
}

/* The host's own blocks, for what it passes by pointer. */
__attribute__((export_name("page_take"))) void *page_take(u64 size) { return take(size); }
__attribute__((export_name("page_give"))) void page_give(void *at) { rattle_dealloc(at); }
