/*
 * Stores the rows of a picture, the even ones first and each pixel by its difference from its left
 * neighbour; and the way back.
 *
 * As in ours: the tests in the same order, the rows in the order of the output, the row that is
 * read computed for each row that is written, and each row in one pass with the left neighbour in a
 * variable. Not as in ours: differences and sums are cut to a byte, and not taken modulo 256 in 16
 * bits; a row's output is a pointer, and not a position in the whole; each direction has its own
 * loop over the rows; and `restrict` says that the output does not overlap the picture.
 */

#include "calls.h"
#include "geometry.h"

/* Writes a row as differences; the first pixel is its own difference from 0. */
static inline void put_differences(uint8_t *restrict out, const uint8_t *restrict row,
                                   uint32_t width)
{
    uint8_t left = 0;
    for (uint32_t i = 0; i < width; i++) {
        uint8_t pixel = row[i];
        out[i] = (uint8_t)(pixel - left);
        left = pixel;
    }
}

/* Writes the row with these differences. */
static inline void put_sums(uint8_t *restrict out, const uint8_t *restrict row, uint32_t width)
{
    uint8_t left = 0;
    for (uint32_t i = 0; i < width; i++) {
        left = (uint8_t)(left + row[i]);
        out[i] = left;
    }
}

static inline uint32_t even_rows(uint32_t height)
{
    return (height + 1) / 2;
}

/* The row at a position of the store. */
static inline uint32_t row_at(uint32_t height, uint32_t position)
{
    uint32_t evens = even_rows(height);
    return position < evens ? 2 * position : 2 * (position - evens) + 1;
}

/* The position of a row in the store. */
static inline uint32_t position_of(uint32_t height, uint32_t row)
{
    return row % 2 == 0 ? row / 2 : even_rows(height) + row / 2;
}

uint64_t peer_store_rows(uint32_t width, uint32_t height, const uint8_t *pixels, size_t pixels_len,
                         uint8_t *out, size_t out_len)
{
    unsigned fault = fault_of_rows(width, height, pixels_len, out_len);
    if (fault)
        return refused(fault);
    for (uint32_t i = 0; i < height; i++)
        put_differences(out + i * width, pixels + row_at(height, i) * width, width);
    return 0;
}

uint64_t peer_restore_rows(uint32_t width, uint32_t height, const uint8_t *stored,
                           size_t stored_len, uint8_t *out, size_t out_len)
{
    unsigned fault = fault_of_rows(width, height, stored_len, out_len);
    if (fault)
        return refused(fault);
    for (uint32_t i = 0; i < height; i++)
        put_sums(out + i * width, stored + position_of(height, i) * width, width);
    return 0;
}
