/*
 * Runs the calls and prints what they answer, one line each. Compiled for
 * the controller (startup.c) and for x86-64 (host.c). PEER runs the peers in
 * the place of our calls, and SWEEP adds the sweep.
 */

#include "harness.h"

int main(void)
{
    measure_controller_calls();
#ifndef PEER
    measure_board_calls();
#endif
#ifdef SWEEP
    sweep_pictures();
    sweep_files();
#endif
    return 0;
}
