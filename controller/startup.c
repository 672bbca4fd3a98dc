/* The bare machine: vectors, start, output by semihosting, and an action on another stack. */

#include "machine.h"

#include <string.h>

/* Semihosting, Arm's 'Semihosting for AArch32 and AArch64': operations and reasons to stop. */
enum { WRITE_TEXT = 0x04, STOP = 0x18 };
enum { RUN_TIME_ERROR = 0x20023, ENDED = 0x20026 };

#define VECTORS 16              /* of a Cortex-M0+ without interrupts */

extern uint32_t harness_stack_top[], data_from[], data_start[], data_end[], bss_start[], bss_end[];
extern int main(void);

static void semihost(int operation, const void *argument)
{
    register int r0 __asm__("r0") = operation;
    register const void *r1 __asm__("r1") = argument;
    __asm__ volatile("bkpt 0xab" : "+r"(r0) : "r"(r1) : "memory");
}

void put(const char *text)
{
    semihost(WRITE_TEXT, text);
}

static void stop(uintptr_t reason)
{
    semihost(STOP, (const void *)reason);
    for (;;)
        ;
}

/* yield and sev do nothing on this machine: they tell cycles.c where a
 * counted action begins and ends. */
__attribute__((naked))
void run_counted(__attribute__((unused)) void *top, __attribute__((unused)) action *act)
{
    __asm__ volatile("push {r4, lr}\n\t"
                     "mov r4, sp\n\t"
                     "mov sp, r0\n\t"
                     "yield\n\t"
                     "blx r1\n\t"
                     "sev\n\t"
                     "mov sp, r4\n\t"
                     "pop {r4, pc}");
}

__attribute__((naked))
void run_uncounted(__attribute__((unused)) void *top, __attribute__((unused)) action *act)
{
    __asm__ volatile("push {r4, lr}\n\t"
                     "mov r4, sp\n\t"
                     "mov sp, r0\n\t"
                     "blx r1\n\t"
                     "mov sp, r4\n\t"
                     "pop {r4, pc}");
}

void reset(void)
{
    memcpy(data_start, data_from, (size_t)((char *)data_end - (char *)data_start));
    memset(bss_start, 0, (size_t)((char *)bss_end - (char *)bss_start));
    main();
    stop(ENDED);
}

static void fault(void)
{
    put("\nfault\n");
    stop(RUN_TIME_ERROR);
}

/* The stack may have left its memory: the handler takes the harness's own. */
__attribute__((naked))
static void hard_fault(void)
{
    __asm__ volatile("ldr r0, =harness_stack_top\n\t"
                     "mov sp, r0\n\t"
                     "ldr r0, =%0\n\t"
                     "bx r0" : : "i"(fault));
}

__attribute__((section(".vectors"), used))
static void *const vectors[VECTORS] = {
    harness_stack_top, (void *)reset, (void *)hard_fault, (void *)hard_fault,
};
