/*
 * The board picture for C: reading a P5 file, the watershed of a picture,
 * and the place query on a picture.
 *
 * Each function returns 0, or the number of the refusal alone:
 *
 *    1  the file does not begin with the letters P5
 *    2  a header number or white space is missing, malformed or over
 *       5 digits, or a comment does not end
 *    3  a side is outside 1 to 40
 *    4  the largest sample is outside 1 to 255
 *    5  the pixel bytes are not n in count
 *    6  a pixel is above the largest sample
 *    7  the adjacency is neither 4 nor 8
 *    8  the picture's length is not n
 *    9  the lent output or work memory is too short
 *   10  the place is n or more
 *
 * n is width times height. When causes of several refusals hold, the one
 * that comes first in the order stated at the function is returned.
 *
 * On a refusal all lent memory is left as it was. After success only the
 * bytes named at the function have changed; the bytes of `out` and `work`
 * beyond them keep their content.
 *
 * Pointers are not null, also where the length is 0. The memory of `out`
 * and of `work` overlaps no other memory of the same call. No memory needs
 * an alignment, and what it holds before the call makes no difference,
 * but for `file` and `pixels`.
 *
 * Numbers are 32-bit; a caller with wider ones tests them first.
 * board_watershed and board_place take some 20,100 bytes of stack.
 */

#ifndef BOARD_H
#define BOARD_H

#include <stddef.h>
#include <stdint.h>

#ifdef __cplusplus
extern "C" {
#endif

/*
 * Reads one P5 file. Before each of the three header numbers stands a byte
 * of white space, then white space and comments in any order; a comment
 * goes from # to the next byte 10 or 13.
 *
 *   file      the bytes of the file; read only
 *   file_len  their number
 *   out       lent output of at least 32 bytes
 *   out_len   its length
 *
 * After success the first 32 bytes of `out` are four numbers of eight
 * bytes each, lowest byte first: the width, the height, the largest sample,
 * and the offset in the file at which the n pixel bytes begin.
 *
 * Refusals, in this order: 1, 2, 3, 4, 5, 6, 9 (out_len below 32).
 */
uint32_t board_read(const uint8_t *file, size_t file_len,
                    uint8_t *out, size_t out_len);

/*
 * Makes the watershed of a picture.
 *
 *   adjacency   4 or 8
 *   width       1 to 40
 *   height      1 to 40
 *   pixels      the pixels, row by row, left to right; read only
 *   pixels_len  their number, n
 *   out         lent output of at least n bytes
 *   out_len     its length
 *   work        lent work memory of at least 10 n bytes
 *   work_len    its length
 *
 * After success the first n bytes of `out` are the pixels of the watershed,
 * and the first 10 n bytes of `work` are zero.
 *
 * Refusals, in this order: 7, 3, 8, 9 (out_len below n, or work_len below
 * 10 n).
 */
uint32_t board_watershed(uint32_t adjacency, uint32_t width, uint32_t height,
                         const uint8_t *pixels, size_t pixels_len,
                         uint8_t *out, size_t out_len,
                         uint8_t *work, size_t work_len);

/*
 * Answers what is at a place of a picture. The patches are the minima of
 * this picture itself, numbered from 1 by first place.
 *
 *   adjacency   4 or 8
 *   width       1 to 40
 *   height      1 to 40
 *   pixels      the pixels, row by row, left to right; read only
 *   pixels_len  their number, n
 *   place       0 to n - 1, counted row by row, left to right
 *   out         lent output of at least 16 bytes
 *   out_len     its length
 *   work        lent work memory of at least 10 n bytes
 *   work_len    its length
 *
 * After success the first 16 bytes of `out` are two numbers of eight bytes
 * each, lowest byte first: the pixel's value, and the number of its patch,
 * or 0 if the pixel is on the line. The first 10 n bytes of `work` are zero.
 *
 * Refusals, in this order: 7, 3, 8, 9 (out_len below 16, or work_len below
 * 10 n), 10.
 */
uint32_t board_place(uint32_t adjacency, uint32_t width, uint32_t height,
                     const uint8_t *pixels, size_t pixels_len,
                     uint32_t place,
                     uint8_t *out, size_t out_len,
                     uint8_t *work, size_t work_len);

#ifdef __cplusplus
}
#endif

#endif
