/*
 * Compares our storing of rows and the way back with the peer's: first that
 * answer and output are the same for many pictures, and that each direction
 * undoes the other; then the times. picture_calls.h tells the arguments.
 */

#include "calls.h"
#include "files.h"
#include "geometry.h"
#include "picture_calls.h"
#include "pictures.h"

#include <stdio.h>
#include <stdlib.h>
#include <string.h>

/* Both calls have one signature. */
static uint64_t convert(any_function *function, const struct given *given, uint8_t *out,
                        size_t room)
{
    return ((store_rows_call *)function)(given->width, given->height, given->pixels,
                                         given->length, out, room);
}

enum { STORE, RESTORE, DIRECTIONS };

static const struct picture_call calls[DIRECTIONS] = {
    [STORE] = { "store_rows", "Storing", (any_function *)controller_store_rows,
                (any_function *)peer_store_rows, convert, pixels_of_sides },
    [RESTORE] = { "restore_rows", "Restoring", (any_function *)controller_restore_rows,
                  (any_function *)peer_restore_rows, convert, pixels_of_sides },
};

static unsigned long undone;            /* how often a direction undid the other */

/* Ends the program unless the other direction gives what was given again. */
static void check_way_back(const struct given *given)
{
    struct given there = *given;
    uint8_t again[LARGEST_N];
    there.call = &calls[given->call == &calls[STORE] ? RESTORE : STORE];
    if (run_call(given, 1, there.pixels, there.length) != 0
        || run_call(&there, 1, again, sizeof again) != 0
        || memcmp(again, given->pixels, given->length) != 0) {
        printf("%s does not undo %s: %u by %u\n", there.call->name, given->call->name,
               given->width, given->height);
        exit(1);
    }
    undone++;
}

static void compare_accepted(struct given *given)
{
    compare_outputs(given);
    check_way_back(given);
}

static void compare_lengths(struct given *given)
{
    with_wrong_lengths(given, compare_outputs);
}

/* Every picture under all sides, as pixels and as a stored form; the last one also with wrong sides
 * and lengths. */
static void compare(void)
{
    static struct given given;
    for (unsigned i = 0; i < DIRECTIONS; i++) {
        given.call = &calls[i];
        for (unsigned number = 0; number < PICTURE_COUNT; number++) {
            make_picture(number, LARGEST_SIDE, given.pixels);
            with_all_sides(&given, compare_accepted);
        }
        with_refused_sides(&given, compare_lengths);
    }
    with_timed(compare_accepted);
    printf("\nstoring and restoring: each undid the other, %lu times\n", undone);
}

/* What is restored is the stored form of the picture that the row names. */
static void store_restored(struct given *timed)
{
    struct given picture = *timed;
    if (timed->call != &calls[RESTORE])
        return;
    picture.call = &calls[STORE];
    run_call(&picture, 0, timed->pixels, timed->length);
}

int main(int arguments, char **argument)
{
    for (unsigned i = 0; i < DIRECTIONS; i++)
        add_timed_pictures(&calls[i]);
    with_timed(store_restored);
    measure_pictures(arguments, argument, "storing and restoring", compare);
    return 0;
}
