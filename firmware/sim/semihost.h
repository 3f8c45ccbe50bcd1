/* Text and the end, by semihosting: QEMU prints it. */
#ifndef SEMIHOST_H
#define SEMIHOST_H
#include <stdint.h>

void put(const char *text);
void put_number(uint32_t value);
void put_signed(int32_t value);
void put_hex(uint32_t value, unsigned digits);
void finish(int status) __attribute__((noreturn));
#endif
