/* Start of a program on QEMU's Cortex-M0. The C library writes by semihosting, and a program ends QEMU with its own status; a fault ends it with 99. */
#include <stdint.h>
#include <stdlib.h>
#include <string.h>

extern uint8_t data_from[], data_start[], data_end[], bss_start[], bss_end[], stack_top[]; /* unit.ld */
void initialise_monitor_handles(void);                                                     /* the C library's semihosting */
int main(void);

static void fault(void) { _Exit(99); }

static void start(void) {
    memcpy(data_start, data_from, (size_t)(data_end - data_start));
    memset(bss_start, 0, (size_t)(bss_end - bss_start));
    initialise_monitor_handles();
    exit(main());
}

/* The stack, reset, NMI and HardFault, which takes every other fault of a Cortex-M0. No interrupt is enabled. */
__attribute__((section(".vectors"), used)) static void *const vectors[] = {stack_top, (void *)start, (void *)fault, (void *)fault};

/* The C library refers to them; no program here has constructors. */
void _init(void) {}
void _fini(void) {}
