/* Times calls: the least of all rounds, in processor time of the thread. */

#ifndef TIMING_H
#define TIMING_H

#include <stdint.h>

#define MOST_CALLS 16           /* that are measured in turn */

/* Runs the call of this number, ours or the peer's. */
typedef uint64_t numbered_call(unsigned call, int is_ours);

/* The least times of a call in seconds. */
struct times {
    double ours, peer;
};

double lesser(double x, double y);

/* The seconds of one call in a round of so many. */
double round_of(numbered_call *run, unsigned call, int is_ours, unsigned repeats);

/* The least times of the calls 0 to count - 1; every round has all of them, ours and the peer's in turn. */
void measure(numbered_call *run, unsigned count, struct times *least);

/* The least times in seconds of some calls of ours, by their numbers. Every round has all of them,
 * each as often as the first fills a round; the next one has them in the other order. */
void measure_in_turn(numbered_call *run, const unsigned *calls, unsigned count, double *least);

/* Runs a call once; a tool counts the instructions of this function. */
void counted(numbered_call *run, unsigned call, int is_ours);

#endif
