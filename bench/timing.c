/* Times calls. */

#define _POSIX_C_SOURCE 199309L

#include "timing.h"

#include <assert.h>
#include <time.h>

#define ROUNDS 25
#define ROUND_SECONDS 400e-6
#define ROUNDS_IN_TURN 250

static volatile uint64_t sink;

static double now(void)
{
    struct timespec t;
    clock_gettime(CLOCK_THREAD_CPUTIME_ID, &t);
    return (double)t.tv_sec + (double)t.tv_nsec * 1e-9;
}

double lesser(double x, double y)
{
    return x < y ? x : y;
}

double round_of(numbered_call *run, unsigned call, int is_ours, unsigned repeats)
{
    double begin = now();
    for (unsigned i = 0; i < repeats; i++)
        sink = run(call, is_ours);
    return (now() - begin) / repeats;
}

/* How many calls fill a round. */
static unsigned repeats_of(numbered_call *run, unsigned call)
{
    double once = round_of(run, call, 1, 1);
    return once > ROUND_SECONDS ? 1 : (unsigned)(ROUND_SECONDS / once) + 1;
}

void measure(numbered_call *run, unsigned count, struct times *least)
{
    unsigned repeats[MOST_CALLS];
    assert(count <= MOST_CALLS);
    for (unsigned call = 0; call < count; call++) {
        repeats[call] = repeats_of(run, call);
        least[call] = (struct times){ 1e9, 1e9 };
    }
    for (unsigned i = 0; i < ROUNDS; i++)
        for (unsigned call = 0; call < count; call++) {
            struct times *t = &least[call];
            t->ours = lesser(t->ours, round_of(run, call, 1, repeats[call]));
            t->peer = lesser(t->peer, round_of(run, call, 0, repeats[call]));
        }
}

void measure_in_turn(numbered_call *run, const unsigned *calls, unsigned count, double *least)
{
    unsigned repeats = repeats_of(run, calls[0]);
    for (unsigned i = 0; i < count; i++)
        least[i] = 1e9;
    for (unsigned round = 0; round < ROUNDS_IN_TURN; round++)
        for (unsigned i = 0; i < count; i++) {
            unsigned turn = round % 2 ? count - 1 - i : i;
            least[turn] = lesser(least[turn], round_of(run, calls[turn], 1, repeats));
        }
}

void counted(numbered_call *run, unsigned call, int is_ours)
{
    sink = run(call, is_ours);
}
