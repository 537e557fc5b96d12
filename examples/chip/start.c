/*
 * What a Cortex-M4F does from reset to main. The C library here is newlib with
 * semihosting: what is printed goes to the debugger, or to the emulator.
 */
#include <stdint.h>
#include <stdlib.h>
#include <string.h>

extern char data_kept[], data_start[], data_end[], bss_start[], bss_end[], stack_top[]; /* chip.ld has them */

int main(void);
void initialise_monitor_handles(void);

void reset(void)
{
    *(volatile uint32_t *)0xe000ed88 |= 0xfu << 20; /* CPACR: the float unit is off until this */
    __asm__ volatile("dsb\n\tisb");
    memcpy(data_start, data_kept, (size_t)(data_end - data_start));
    memset(bss_start, 0, (size_t)(bss_end - bss_start));
    initialise_monitor_handles();
    exit(main());
}

void fault(void)
{
    _Exit(99);
}

/* newlib's start and end of a program call these */
void _init(void)
{
}

void _fini(void)
{
}

union vector {
    const char *stack;
    void (*handler)(void);
};

__attribute__((section(".vectors"), used)) static const union vector vectors[16] = {
    {.stack = stack_top},  {.handler = reset}, {.handler = fault}, {.handler = fault},
    {.handler = fault},    {.handler = fault}, {.handler = fault},
};
