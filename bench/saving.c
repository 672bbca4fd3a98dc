/*
 * Compares our saving of P5 files with the peer's: first that answer and
 * output are the same for many pictures, then the times. picture_calls.h tells
 * the arguments.
 */

#include "calls.h"
#include "files.h"
#include "geometry.h"
#include "picture_calls.h"
#include "pictures.h"

#include <stdio.h>
#include <stdlib.h>
#include <string.h>

#define HEADER "P5\n%u %u\n%u\n"        /* of the width, the height and the largest sample */
#define PIXEL_ABOVE 6           /* the refusal's number */

/* Largest samples that are compared: of 1 to 3 digits, and those that are refused, also such as
 * would be 1 if they were cut to 8 or 16 bits. */
static const uint32_t compared_largest[] = {
    0, 1, 2, 9, 10, 99, 100, 254, 255, 256, 257, 65537, UINT32_MAX,
};

static uint64_t save(any_function *function, const struct given *given, uint8_t *out, size_t room)
{
    return ((write_file_call *)function)(given->width, given->height, given->largest,
                                         given->pixels, given->length, out, room);
}

/* The file's length is taken from the C library, so that neither of the two says it. */
static size_t file_bytes(const struct given *given)
{
    size_t count = (size_t)snprintf(NULL, 0, HEADER, given->width, given->height, given->largest)
        + given->length;
    return count > MOST_OUTPUT_BYTES ? MOST_OUTPUT_BYTES : count;
}

static const struct picture_call saving = {
    "write_file", "Saving", (any_function *)controller_write_file,
    (any_function *)peer_write_file, save, file_bytes,
};

static struct given given = { .call = &saving };        /* that is compared */

static void make_timed(void)
{
    add_timed_pictures(&saving);
    struct given *last_above = add_timed(
        &saving, "the last pixel above the largest sample, refused", LARGEST_SIDE);
    memset(last_above->pixels, 0, LARGEST_N - 1);
    last_above->pixels[LARGEST_N - 1] = LARGEST_SAMPLE;
    last_above->largest = LARGEST_SAMPLE - 1;
}

/* Compares a picture as it is and cut to a largest sample. */
static void compare_picture(unsigned number, uint32_t largest)
{
    given.largest = largest;
    make_picture(number, LARGEST_SIDE, given.pixels);
    with_all_sides(&given, compare_outputs);
    for (unsigned x = 0; x < LARGEST_N; x++)
        if (given.pixels[x] > largest)
            given.pixels[x] = (uint8_t)largest;
    with_all_sides(&given, compare_outputs);
}

/* Compares all pictures with each largest sample that is in its range. */
static void compare_pictures(void)
{
    for (unsigned i = 0; i < PICTURE_COUNT; i++)
        for (unsigned k = 0; k < LENGTH_OF(compared_largest); k++)
            if (compared_largest[k] >= 1 && compared_largest[k] <= LARGEST_SAMPLE)
                compare_picture(i, compared_largest[k]);
}

/* Compares a dark picture without pixels above the largest sample, and with one at three places. */
static void compare_dark(struct given *dark)
{
    const size_t places[] = {
        0, pixels_of_sides(dark) / 2, dark->length > 0 ? dark->length - 1 : 0,
    };
    memset(dark->pixels, 0, sizeof dark->pixels);
    compare_outputs(dark);
    for (unsigned i = 0; i < LENGTH_OF(places); i++) {
        dark->pixels[places[i]] = LARGEST_SAMPLE;
        compare_outputs(dark);
        dark->pixels[places[i]] = 0;
    }
}

static void compare_lengths(struct given *dark)
{
    with_wrong_lengths(dark, compare_dark);
}

/* Compares all the numbers together, so that each refusal meets those behind it in the order. */
static void compare_numbers(void)
{
    for (unsigned k = 0; k < LENGTH_OF(compared_largest); k++) {
        given.largest = compared_largest[k];
        with_refused_sides(&given, compare_lengths);
    }
}

/* Compares pixels that are above from each place on, and one alone at each place. */
static void compare_places(void)
{
    given.width = LARGEST_SIDE;
    given.height = LARGEST_SIDE;
    given.largest = LARGEST_SAMPLE - 1;
    given.length = LARGEST_N;
    for (unsigned place = 0; place < LARGEST_N; place++) {
        memset(given.pixels, (int)given.largest, LARGEST_N);
        given.pixels[place] = LARGEST_SAMPLE;
        compare_output(&given, MOST_OUTPUT_BYTES);
        memset(given.pixels + place, LARGEST_SAMPLE, LARGEST_N - place);
        compare_output(&given, MOST_OUTPUT_BYTES);
    }
}

static void compare(void)
{
    compare_pictures();
    compare_numbers();
    compare_places();
    with_timed(compare_outputs);
}

/* Ends the program unless a timed picture is saved with the header of the C library; the one with a
 * pixel above the largest sample is refused. */
static void check_timed(struct given *timed)
{
    uint8_t output[MOST_OUTPUT_BYTES + 1];
    char header[MOST_OUTPUT_BYTES];
    uint64_t answer = run_call(timed, 1, output, sizeof output);
    size_t length = (size_t)sprintf(header, HEADER, timed->width, timed->height, timed->largest);
    int is_saved = answer == length + timed->length && memcmp(output, header, length) == 0
        && memcmp(output + length, timed->pixels, timed->length) == 0;
    int is_refused = controller_refusal(answer) == PIXEL_ABOVE
        && controller_first_above(answer) == LARGEST_N - 1;
    if (timed->largest == LARGEST_SAMPLE ? !is_saved : !is_refused) {
        printf("write_file answers otherwise for a timed picture of side %u\n", timed->width);
        exit(1);
    }
}

int main(int arguments, char **argument)
{
    make_timed();
    with_timed(check_timed);
    measure_pictures(arguments, argument, "saving", compare);
    return 0;
}
