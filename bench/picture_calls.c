/* What the measurements of saving and of storing rows share. */

#include "picture_calls.h"

#include "board_controller.h"
#include "files.h"
#include "pictures.h"
#include "timing.h"

#include <assert.h>
#include <stdio.h>
#include <stdlib.h>
#include <string.h>

#define OUTPUT_ROOM (MOST_OUTPUT_BYTES + 8)     /* more than is lent */
#define FEW_PIXELS 6            /* lent where a side is refused */

static const unsigned grown_sides[] = { 5, 10, 20, 40 };

/* Sides of 1 and 2 digits, and those that are refused, also such as would be 1 if they were cut to
 * 8 or 16 bits. */
static const uint32_t compared_sides[] = { 0, 1, 2, 9, 10, 40, 41, 257, 65537, UINT32_MAX };

static struct given timed[MOST_CALLS];
static unsigned timed_count;

uint64_t run_call(const struct given *given, int is_ours, uint8_t *out, size_t room)
{
    const struct picture_call *call = given->call;
    return call->run(is_ours ? call->ours : call->peer, given, out, room);
}

size_t pixels_of_sides(const struct given *given)
{
    int fit = given->width <= LARGEST_SIDE && given->height <= LARGEST_SIDE;
    return fit ? (size_t)given->width * given->height : FEW_PIXELS;
}

static void end_by_difference(const struct given *given, size_t room, uint64_t ours, uint64_t peer)
{
    printf("%s differs: %u by %u, largest sample %u, %zu pixels, output of %zu: %llx %llx\n",
           given->call->name, given->width, given->height, given->largest, given->length, room,
           (unsigned long long)ours, (unsigned long long)peer);
    exit(1);
}

void compare_output(const struct given *given, size_t room)
{
    uint8_t ours[OUTPUT_ROOM], peer[OUTPUT_ROOM];
    memset(ours, FILLING, sizeof ours);
    memset(peer, FILLING, sizeof peer);
    uint64_t first = run_call(given, 1, ours, room), second = run_call(given, 0, peer, room);
    if (first != second || memcmp(ours, peer, sizeof ours) != 0)
        end_by_difference(given, room, first, second);
    count_answer(controller_refusal(first));
}

void compare_outputs(struct given *given)
{
    size_t count = given->call->output_bytes(given);
    compare_output(given, 0);
    if (count > 0)
        compare_output(given, count - 1);
    compare_output(given, count);
    compare_output(given, count + 1);
}

void with_all_sides(struct given *given, comparison *compare)
{
    for (given->width = 1; given->width <= LARGEST_SIDE; given->width++)
        for (given->height = 1; given->height <= LARGEST_SIDE; given->height++) {
            given->length = (size_t)given->width * given->height;
            compare(given);
        }
}

void with_refused_sides(struct given *given, comparison *compare)
{
    for (unsigned i = 0; i < LENGTH_OF(compared_sides); i++)
        for (unsigned j = 0; j < LENGTH_OF(compared_sides); j++) {
            given->width = compared_sides[i];
            given->height = compared_sides[j];
            compare(given);
        }
}

void with_wrong_lengths(struct given *given, comparison *compare)
{
    size_t n = pixels_of_sides(given);
    for (given->length = n > 0 ? n - 1 : 0; given->length <= n + 1; given->length++)
        compare(given);
}

void with_timed(comparison *compare)
{
    for (unsigned i = 0; i < timed_count; i++)
        compare(&timed[i]);
}

struct given *add_timed(const struct picture_call *call, const char *name, unsigned side)
{
    assert(timed_count < MOST_CALLS);
    struct given *added = &timed[timed_count++];
    added->call = call;
    added->name = name;
    added->width = side;
    added->height = side;
    added->largest = LARGEST_SAMPLE;
    added->length = side * side;
    make_picture(NOISE, side, added->pixels);
    return added;
}

void add_timed_pictures(const struct picture_call *call)
{
    memcpy(add_timed(call, "examples/wall.pgm", LARGEST_SIDE)->pixels, wall_pixels(), LARGEST_N);
    add_timed(call, "noise", LARGEST_SIDE);
    for (unsigned i = 0; i < LENGTH_OF(grown_sides); i++)
        add_timed(call, NULL, grown_sides[i]);
}

static uint64_t run_timed(unsigned number, int is_ours)
{
    static _Alignas(CACHE_LINE) uint8_t output[MOST_OUTPUT_BYTES];
    return run_call(&timed[number], is_ours, output, sizeof output);
}

/* How many bytes of output one of the timed has: none on a refusal. */
static size_t written_bytes(unsigned number)
{
    const struct given *given = &timed[number];
    return controller_refusal(run_timed(number, 1)) ? 0 : given->call->output_bytes(given);
}

static void print_tables(const struct picture_call *call, const struct times *least)
{
    print_times_head(call->title, "picture");
    for (unsigned i = 0; i < timed_count; i++)
        if (timed[i].call == call && timed[i].name)
            print_times(timed[i].name, written_bytes(i), least[i]);
    print_growth_head(call->title, "noise", "pixel", "side");
    for (unsigned i = 0; i < timed_count; i++)
        if (timed[i].call == call && !timed[i].name)
            print_growth(timed[i].width, timed[i].length, least[i]);
}

/* Runs those of 40 by 40 once, or those of each side. */
static void run_once(int is_growth)
{
    for (unsigned i = 0; i < timed_count; i++) {
        if (is_growth != !timed[i].name)
            continue;
        if (is_growth)
            printf("%s|%u\n", timed[i].call->title, timed[i].width);
        else
            printf("%s|%s|%zu\n", timed[i].call->title, timed[i].name, written_bytes(i));
        counted(run_timed, i, 1);
        counted(run_timed, i, 0);
    }
}

void measure_pictures(int arguments, char **argument, const char *calls, void (*compare)(void))
{
    struct times least[MOST_CALLS];
    const char *mode = arguments > 1 ? argument[1] : "";
    int is_growth = strcmp(mode, "growth") == 0;
    if (is_growth || strcmp(mode, "once") == 0) {
        run_once(is_growth);
        return;
    }
    compare();
    print_answers(calls);
    measure(run_timed, timed_count, least);
    for (unsigned i = 0; i < timed_count; i++)
        if (i == 0 || timed[i].call != timed[i - 1].call)
            print_tables(timed[i].call, least);
}
