/* What compilers call by themselves. So no C library is needed. */
#include <stddef.h>
#include <stdint.h>

void *memcpy(void *to, const void *from, size_t count) {
    for (size_t k = 0; k < count; k++) ((uint8_t *)to)[k] = ((const uint8_t *)from)[k];
    return to;
}

void *memmove(void *to, const void *from, size_t count) {
    if ((uintptr_t)to <= (uintptr_t)from) return memcpy(to, from, count);
    for (size_t k = count; k; k--) ((uint8_t *)to)[k - 1] = ((const uint8_t *)from)[k - 1];
    return to;
}

void *memset(void *to, int byte, size_t count) {
    for (size_t k = 0; k < count; k++) ((uint8_t *)to)[k] = (uint8_t)byte;
    return to;
}
