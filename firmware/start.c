/* Before main: the vectors, and what is copied to memory. */
#include <stdint.h>

extern uint32_t copied_from[], copied_to[], copied_end[], cleared[], cleared_end[], stack_top[];
int main(void);

/* It is executed where the file has it; main and all else may be copied first. */
__attribute__((section(".reset"), noreturn, used)) void reset(void) {
    for (volatile uint32_t *from = copied_from, *to = copied_to; to < (volatile uint32_t *)copied_end;) *to++ = *from++;
    for (volatile uint32_t *to = cleared; to < (volatile uint32_t *)cleared_end;) *to++ = 0;
    main();
    for (;;) {}
}

/* A fault ends here, and then the watchdog resets the chip. */
__attribute__((section(".reset"), noreturn, used)) static void fault(void) { for (;;) {} }

__attribute__((section(".vectors"), used)) static const void *const vectors[16] = {
    stack_top, reset, fault, fault, fault, fault, fault, 0, 0, 0, 0, fault, fault, 0, fault, fault,
};
