/* Where a Cortex-M4 without an operating system begins (ARMv7-M, section B1.5): the vectors, data into RAM, then main. What main
 * took of the stack is told at its end: the stack is painted before. Texts go out by semihosting, as newlib's rdimon has it. */
#include <stdint.h>
#include <stdio.h>
#include <stdlib.h>

extern uint32_t _sdata, _edata, _sidata, _sbss, _ebss, __stack;
extern int main(void);
extern void initialise_monitor_handles(void);

enum { PAINTED = 65536 }; /* words */

static void fault(void)
{
    puts("fault");
    exit(70);
}

void Reset_Handler(void)
{
    uint32_t *from = &_sidata;
    for (uint32_t *to = &_sdata; to < &_edata; to++)
        *to = *from++;
    for (uint32_t *to = &_sbss; to < &_ebss; to++)
        *to = 0;
    initialise_monitor_handles();
    volatile uint32_t *lowest = &__stack - PAINTED;
    for (uint32_t i = 0; i < PAINTED - 64; i++)
        lowest[i] = 0x5a5a5a5a;
    int status = main();
    uint32_t unused = 0;
    while (lowest[unused] == 0x5a5a5a5a)
        unused++;
    fprintf(stderr, "stack of C: %u bytes\n", (unsigned)(4 * (PAINTED - unused)));
    exit(status);
}

void _init(void)
{
}

void _fini(void)
{
}

__attribute__((section(".vectors"), used)) static const void *const vectors[16] = {
    &__stack, (const void *)Reset_Handler, (const void *)fault, (const void *)fault, (const void *)fault, (const void *)fault,
};
