/*
 * Reads a P5 file: the letters, three numbers with white space and comments before each, one byte
 * of white space, the pixels.
 */

#include "calls.h"
#include "geometry.h"

#include <string.h>

#define LETTERS 2               /* bytes of P5 */
#define NUMBERS 3               /* width, height and largest sample */
#define MOST_DIGITS 5           /* of a number */
#define NUMBER_BYTES 8          /* of a number in the output */
#define OUTPUT_BYTES (4 * NUMBER_BYTES)

enum {
    NOT_P5 = 1, MALFORMED, SIDE_OUTSIDE, LARGEST_OUTSIDE, COUNT_DIFFERS, PIXEL_ABOVE,
    OUTPUT_SHORT = 9
};

static inline int is_white(uint8_t byte)
{
    return byte == ' ' || byte == '\t' || byte == '\n' || byte == '\r';
}

/* The position behind white space and comments; the byte that ends a comment is white space too. */
static inline const uint8_t *skip_gap(const uint8_t *at, const uint8_t *end)
{
    while (at < end) {
        if (*at == '#')
            while (at < end && *at != '\n' && *at != '\r')
                at++;
        else if (is_white(*at))
            at++;
        else
            break;
    }
    return at;
}

/* Reads a number with the gap before it; the position behind it, or none if it is malformed. */
static const uint8_t *read_number(const uint8_t *at, const uint8_t *end, uint32_t *number)
{
    if (at == end || !is_white(*at))
        return NULL;
    at = skip_gap(at, end);
    const uint8_t *start = at;
    uint32_t value = 0;
    for (; at < end && *at >= '0' && *at <= '9'; at++) {
        if (at - start == MOST_DIGITS)
            return NULL;
        value = value * 10 + (*at - '0');
    }
    *number = value;
    return at == start ? NULL : at;
}

/* Reads the header behind the letters; the first pixel's position, or none if it is malformed. */
static const uint8_t *read_header(const uint8_t *at, const uint8_t *end, uint32_t *numbers)
{
    for (unsigned i = 0; i < NUMBERS; i++) {
        at = read_number(at, end, &numbers[i]);
        if (!at)
            return NULL;
    }
    return at < end && is_white(*at) ? at + 1 : NULL;
}

/* The refusal of sides, largest sample and pixels, or 0. */
static unsigned fault_of_pixels(const uint32_t *numbers, const uint8_t *pixels, size_t count)
{
    uint32_t width = numbers[0], height = numbers[1], largest = numbers[2];
    if (width < 1 || width > LARGEST_SIDE || height < 1 || height > LARGEST_SIDE)
        return SIDE_OUTSIDE;
    if (largest < 1 || largest > LARGEST_SAMPLE)
        return LARGEST_OUTSIDE;
    if (count != (size_t)width * height)
        return COUNT_DIFFERS;
    for (size_t i = 0; i < count; i++)
        if (pixels[i] > largest)
            return PIXEL_ABOVE;
    return 0;
}

/* Writes a number, lowest byte first. */
static inline void put_number(uint8_t *out, uint64_t number)
{
    for (unsigned i = 0; i < NUMBER_BYTES; i++)
        out[i] = (uint8_t)(number >> 8 * i);
}

uint32_t peer_read(const uint8_t *file, size_t file_len, uint8_t *out, size_t out_len)
{
    uint32_t numbers[NUMBERS];
    if (file_len < LETTERS || memcmp(file, "P5", LETTERS) != 0)
        return NOT_P5;
    const uint8_t *end = file + file_len;
    const uint8_t *pixels = read_header(file + LETTERS, end, numbers);
    if (!pixels)
        return MALFORMED;
    unsigned fault = fault_of_pixels(numbers, pixels, (size_t)(end - pixels));
    if (fault)
        return fault;
    if (out_len < OUTPUT_BYTES)
        return OUTPUT_SHORT;
    for (unsigned i = 0; i < NUMBERS; i++)
        put_number(out + i * NUMBER_BYTES, numbers[i]);
    put_number(out + NUMBERS * NUMBER_BYTES, (uint64_t)(pixels - file));
    return 0;
}
