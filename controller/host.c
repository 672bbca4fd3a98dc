/* The same program on x86-64: calls run on the ordinary stack, and nothing is counted. */

#include "machine.h"

#include <stdio.h>

_Alignas(STACK_ALIGNMENT) uint8_t controller_memory[CONTROLLER_BYTES];

void put(const char *text)
{
    fputs(text, stdout);
}

void run_counted(void *top, action *act)
{
    (void)top;
    act();
}

void run_uncounted(void *top, action *act)
{
    run_counted(top, act);
}
