/*
 * What the measurements of saving and of storing rows share: calls that take a
 * picture and an output, compared in answer and every byte, then timed.
 */

#ifndef PICTURE_CALLS_H
#define PICTURE_CALLS_H

#include "geometry.h"

#include <stddef.h>
#include <stdint.h>

#define CACHE_LINE 64           /* bytes */
#define LENT_PIXELS (LARGEST_N + 1)     /* a picture may be one too long */
#define MOST_OUTPUT_BYTES (MOST_HEADER_BYTES + LARGEST_N)       /* those of a file */

typedef void any_function(void);
struct given;

/* A call, as ours and as the peer's. */
struct picture_call {
    const char *name;           /* in C, without its prefix */
    const char *title;          /* of its tables */
    any_function *ours, *peer;
    /* runs one of the two */
    uint64_t (*run)(any_function *function, const struct given *given, uint8_t *out, size_t room);
    /* the length of output that is just enough */
    size_t (*output_bytes)(const struct given *given);
};

/* A call, and the picture that it is given. */
struct given {
    const struct picture_call *call;
    const char *name;           /* of its row at 40 by 40; none for noise of each side */
    uint32_t width, height;
    uint32_t largest;           /* sample of a picture that is saved */
    size_t length;
    _Alignas(CACHE_LINE) uint8_t pixels[LENT_PIXELS];
};

typedef void comparison(struct given *given);

uint64_t run_call(const struct given *given, int is_ours, uint8_t *out, size_t room);

/* The pixels of the given sides, or a few where a side is too large. */
size_t pixels_of_sides(const struct given *given);

/* Runs ours and the peer's, and ends the program if an answer or a byte of output differs. */
void compare_output(const struct given *given, size_t room);

/* The same with outputs of no bytes, one too few, just enough and one more. */
comparison compare_outputs;

/* Compares the first of the given pixels under all sides that a picture may have. */
void with_all_sides(struct given *given, comparison *compare);

/* Compares under pairs of sides, also such as are refused. */
void with_refused_sides(struct given *given, comparison *compare);

/* Compares a picture that is one pixel too short, of the right length, one too long. */
void with_wrong_lengths(struct given *given, comparison *compare);

/* Compares all that is timed. */
void with_timed(comparison *compare);

/* Adds noise of a side to what is timed; the caller may change it. */
struct given *add_timed(const struct picture_call *call, const char *name, unsigned side);

/* Adds examples/wall.pgm and noise of 40 by 40, and noise of each side. */
void add_timed_pictures(const struct picture_call *call);

/*
 * Compares, then prints the times of all that was added. With the argument
 * `once` each one of 40 by 40 runs once instead, ours and then the peer's, in
 * the function `counted`, for a tool that counts instructions; a line for each
 * pair names it. With `growth` the same with noise of each side.
 */
void measure_pictures(int arguments, char **argument, const char *calls, void (*compare)(void));

#endif
