/* What the measurements of reading and saving files and of storing rows share. */

#include "files.h"
#include "geometry.h"

#include <stdio.h>

#define ANSWERS 10              /* success, and refusals up to 9 */
#define NANOSECONDS 1e9         /* of a second */

static unsigned long answered[ANSWERS];

const uint8_t *wall_pixels(void)
{
    return wall_file + wall_file_length - LARGEST_N;
}

void count_answer(unsigned number)
{
    answered[number]++;
}

void print_answers(const char *call)
{
    unsigned long all = 0;
    for (unsigned i = 0; i < ANSWERS; i++)
        all += answered[i];
    printf("\nresults of %s: the same %lu times; by answer", call, all);
    for (unsigned i = 0; i < ANSWERS; i++)
        if (answered[i] > 0)
            printf(" %u: %lu", i, answered[i]);
    printf("\n");
    fflush(stdout);
}

void print_times_head(const char *title, const char *first)
{
    printf("\n%s: time of ours over time of the peer, 40 by 40\n\n", title);
    printf("| %s | bytes | ours, ns | peer, ns | ours over the peer |\n|---|---|---|---|---|\n",
           first);
}

void print_times(const char *name, size_t bytes, struct times least)
{
    printf("| %s | %zu | %.0f | %.0f | %.2f |\n", name, bytes, least.ours * NANOSECONDS,
           least.peer * NANOSECONDS, least.ours / least.peer);
}

void print_growth_head(const char *title, const char *what, const char *unit, const char *first)
{
    printf("\n%s %s: nanoseconds a %s\n\n| %s | ours | peer |\n|---|---|---|\n",
           title, what, unit, first);
}

void print_growth(size_t first, size_t units, struct times least)
{
    printf("| %zu | %.2f | %.2f |\n", first, least.ours * NANOSECONDS / (double)units,
           least.peer * NANOSECONDS / (double)units);
}
