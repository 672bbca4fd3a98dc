/* What the machine offers: startup.c on the controller, host.c on x86-64. */

#ifndef MACHINE_H
#define MACHINE_H

#include <stdint.h>

#define CONTROLLER_BYTES 32768u
#define STACK_ALIGNMENT 8u      /* bytes, by Arm's procedure call standard */

typedef void action(void);

/* All memory that a call has: what it is lent, and its stack below that. */
extern uint8_t controller_memory[CONTROLLER_BYTES];

/* Writes a text to the output. */
void put(const char *text);

/* Runs an action on the stack that ends at top. cycles.c counts what
 * run_counted runs. On x86-64 both use the program's own stack. */
void run_counted(void *top, action *act);
void run_uncounted(void *top, action *act);

#endif
