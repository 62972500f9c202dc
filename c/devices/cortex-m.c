/* The start of a program on a Cortex-M without an operating system: the vectors, and what runs before `main`. Input and output go through
 * the emulator by newlib's semihosting. */
#include <stdint.h>
#include <stdlib.h>

extern uint8_t data_start[], data_end[], data_source[], bss_start[], bss_end[], stack_top[];
extern void initialise_monitor_handles(void);
extern void __libc_init_array(void);
int main(void);

void _init(void) {}
void _fini(void) {}

static void fault(void) {
    for (;;) __asm__ volatile("bkpt 1");
}

void reset(void) {
    const uint8_t *from = data_source;
    for (uint8_t *to = data_start; to < data_end; to++) *to = *from++;
    for (uint8_t *to = bss_start; to < bss_end; to++) *to = 0;
    initialise_monitor_handles();
    __libc_init_array();
    exit(main());
}

static const void *const vectors[16] __attribute__((section(".vectors"), used)) = {stack_top, (void *)reset, (void *)fault, (void *)fault};
