/*
 * Saves a picture as a P5 file with the shortest header.
 *
 * As in ours: the tests in the same order, one pass that ends at the first pixel above the largest
 * sample, the header in a local array, then header and pixels copied byte by byte. Not as in ours: a
 * number's digits are written by tests, and not by a function that calls itself; the local array is
 * not cleared; and `restrict` says that a copy does not overlap, so that gcc calls memcpy or memmove
 * for it at -O2.
 */

#include "calls.h"
#include "geometry.h"

enum { SIDE_OUTSIDE = 3, LARGEST_OUTSIDE, PIXEL_ABOVE = 6, COUNT_DIFFERS = 8, OUTPUT_SHORT };

/* The first place of a pixel above the largest sample, or the count of pixels. */
static inline size_t first_above(const uint8_t *pixels, size_t count, uint32_t largest)
{
    size_t i = 0;
    while (i < count && pixels[i] <= largest)
        i++;
    return i;
}

/* Writes a number below 1,000 and the byte that follows it; answers the position behind them. */
static inline uint8_t *put_number(uint8_t *at, uint32_t number, uint8_t behind)
{
    if (number >= 100)
        *at++ = (uint8_t)('0' + number / 100);
    if (number >= 10)
        *at++ = (uint8_t)('0' + number / 10 % 10);
    *at++ = (uint8_t)('0' + number % 10);
    *at++ = behind;
    return at;
}

/* Writes the header; answers the count of its bytes. */
static inline size_t put_header(uint8_t *header, uint32_t width, uint32_t height, uint32_t largest)
{
    uint8_t *at = header;
    *at++ = 'P';
    *at++ = '5';
    *at++ = '\n';
    at = put_number(at, width, ' ');
    at = put_number(at, height, '\n');
    at = put_number(at, largest, '\n');
    return (size_t)(at - header);
}

static inline void copy(uint8_t *restrict to, const uint8_t *restrict from, size_t count)
{
    for (size_t i = 0; i < count; i++)
        to[i] = from[i];
}

/* The first refusal that numbers and the picture's length decide, or 0. */
static inline unsigned fault_of_numbers(uint32_t width, uint32_t height, uint32_t largest,
                                        size_t pixels_len)
{
    if (width < 1 || width > LARGEST_SIDE || height < 1 || height > LARGEST_SIDE)
        return SIDE_OUTSIDE;
    if (largest < 1 || largest > LARGEST_SAMPLE)
        return LARGEST_OUTSIDE;
    return pixels_len == (size_t)width * height ? 0 : COUNT_DIFFERS;
}

uint64_t peer_write_file(uint32_t width, uint32_t height, uint32_t largest,
                         const uint8_t *pixels, size_t pixels_len, uint8_t *out, size_t out_len)
{
    uint8_t header[MOST_HEADER_BYTES];
    unsigned fault = fault_of_numbers(width, height, largest, pixels_len);
    if (fault)
        return refused(fault);
    size_t above = first_above(pixels, pixels_len, largest);
    if (above < pixels_len)
        return refused(PIXEL_ABOVE) | above << 16;
    size_t header_len = put_header(header, width, height, largest);
    if (out_len < header_len + pixels_len)
        return refused(OUTPUT_SHORT);
    copy(out, header, header_len);
    copy(out + header_len, pixels, pixels_len);
    return header_len + pixels_len;
}
