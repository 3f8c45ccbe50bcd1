/* Runs c/chip.c on a processor without an operating system or a C library: its start, its output and the functions of memory
   that a compiler calls. A Cortex-M speaks to qemu-system-arm by semihosting, a RISC-V to qemu-riscv32 as a program of Linux. */
typedef __SIZE_TYPE__ size_t;

const char *chip_failed(void);

void *memcpy(void *to, const void *from, size_t count) {
    unsigned char *a = to;
    const unsigned char *b = from;
    while (count--) *a++ = *b++;
    return to;
}

void *memmove(void *to, const void *from, size_t count) {
    unsigned char *a = to;
    const unsigned char *b = from;
    if (a <= b) return memcpy(to, from, count);
    while (count--) a[count] = b[count];
    return to;
}

void *memset(void *to, int byte, size_t count) {
    unsigned char *a = to;
    while (count--) *a++ = (unsigned char)byte;
    return to;
}

#if defined(__arm__)
static int asked(int operation, const void *what) {
    register int r0 __asm__("r0") = operation;
    register const void *r1 __asm__("r1") = what;
    __asm__ volatile("bkpt 0xab" : "+r"(r0) : "r"(r1) : "memory");
    return r0;
}

static void say(const char *text) { asked(4, text); }

static void end(int failed) {
    asked(0x18, (void *)(failed ? 0x20023 : 0x20026));
    for (;;) {}
}
#else
static size_t length(const char *text) {
    size_t count = 0;
    while (text[count]) count++;
    return count;
}

static long asked(long number, long a, long b, long c) {
    register long a7 __asm__("a7") = number;
    register long a0 __asm__("a0") = a;
    register long a1 __asm__("a1") = b;
    register long a2 __asm__("a2") = c;
    __asm__ volatile("ecall" : "+r"(a0) : "r"(a1), "r"(a2), "r"(a7) : "memory");
    return a0;
}

static void say(const char *text) { asked(64, 1, (long)text, (long)length(text)); }

static void end(int failed) {
    asked(93, failed, 0, 0);
    for (;;) {}
}
#endif

void start(void) {
    const char *failed = chip_failed();
    say(failed ? failed : "c/chip.c: all as it should be");
    say("\n");
    end(failed != 0);
}

#if defined(__arm__)
/* All is in RAM: there is nothing to copy, and QEMU clears the rest. */
extern char stack_top;
__attribute__((section(".vectors"), used)) void *const table[2] = {&stack_top, (void *)start};
#else
__attribute__((naked, used)) void _start(void) { __asm__ volatile("j start"); }
#endif
