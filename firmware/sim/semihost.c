/* ARM's semihosting: a breakpoint with a number, which QEMU answers. */
#include "semihost.h"

#define WORLD __attribute__((section(".world"), noinline))

WORLD static void call(uint32_t number, const void *with) {
    register uint32_t r0 __asm__("r0") = number;
    register const void *r1 __asm__("r1") = with;
    __asm__ volatile("bkpt 0xab" : "+r"(r0) : "r"(r1) : "memory");
}

WORLD void put(const char *text) { call(4, text); }

WORLD static void put_digits(uint32_t value, unsigned base, unsigned digits, const char *before) {
    char text[16], *at = text + sizeof text - 1;
    *at = 0;
    for (unsigned k = 0; value || k < digits; k++, value /= base) *--at = "0123456789ABCDEF"[value % base];
    put(before);
    put(at);
}

WORLD void put_number(uint32_t value) { put_digits(value, 10, 1, ""); }
WORLD void put_signed(int32_t value) { put_digits(value < 0 ? -(uint32_t)value : (uint32_t)value, 10, 1, value < 0 ? "-" : ""); }
WORLD void put_hex(uint32_t value, unsigned digits) { put_digits(value, 16, digits, ""); }

WORLD void finish(int status) {
    call(0x18, status ? (const void *)0x20024 : (const void *)0x20026);
    for (;;) {}
}
