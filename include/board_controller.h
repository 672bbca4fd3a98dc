/*
 * The board picture for firmware: every call on a picture, with numbers,
 * bytes and 16-bit memory. board_read of board.h reads a file. docs/scope.md
 * defines the terms.
 *
 * n is width times height, 1 to 1,600. Places count from 0, row by row, left
 * to right.
 *
 * Each function returns one number. Its upper 32 bits (controller_refusal)
 * are 0, or the number of the refusal:
 *
 *    3  a side is outside 1 to 40
 *    4  the largest sample is outside 1 to 255
 *    6  a pixel is above the largest sample
 *    7  the adjacency is neither 4 nor 8
 *    8  the length of the picture or of its stored form is not n
 *    9  the lent output, list, tree or work memory is too short
 *   10  the place is n or more
 *   11  the lent tree is not that of the picture under the adjacency: its
 *       count, a list entry below the true count, or an entry of its map
 *       differs
 *   13  the least size is 0 or above n
 *   14  the handbook is neither 4 nor 5
 *
 * Its lower 32 bits (controller_value) are the value that is named at the
 * function, or 0 on a refusal; only the refusal 6 of controller_write_file
 * has a place there. When causes of several refusals hold, the one that comes
 * first in the order stated at the function is returned.
 *
 * On a refusal all lent memory is left as it was. After success only the
 * entries named at the function and the first 5 n of `work` have changed;
 * all others keep their content.
 *
 * Every function takes these; controller_write_file, controller_store_rows
 * and controller_restore_rows without adjacency and work, and the last of them
 * with a stored form in place of the pixels:
 *
 *   adjacency   4 or 8
 *   width       1 to 40
 *   height      1 to 40
 *   pixels      the pixels, row by row, left to right; read only, they may
 *               lie in flash
 *   pixels_len  their number, n
 *   work        lent work memory of at least 5 n entries; the first 5 n are
 *               zero after success
 *   work_len    its length
 *
 * Lengths count entries, not bytes. Memory of 16-bit entries lies at even
 * addresses. Pointers are not null, also where the length is 0. Memory that
 * is written overlaps no other memory of the same call. What outputs and
 * `work` hold before the call makes no difference.
 *
 * No other memory is used but the stack: the library has no variables and no
 * heap, so that calls on memory of their own may interrupt one another. A
 * call takes at most 4,200 bytes of stack on x86-64, the arguments that its
 * caller puts there not counted; docs/controller.md has the controller.
 *
 * Numbers are 32-bit, and k 8-bit; a caller with wider ones tests them first.
 * Lengths are C's size_t.
 */

#ifndef BOARD_CONTROLLER_H
#define BOARD_CONTROLLER_H

#include <stddef.h>
#include <stdint.h>

#ifdef __cplusplus
extern "C" {
#endif

/* The number of the refusal in an answer, or 0. */
static inline uint32_t controller_refusal(uint64_t answer)
{
    return (uint32_t)(answer >> 32);
}

/* The value in an answer. */
static inline uint32_t controller_value(uint64_t answer)
{
    return (uint32_t)answer;
}

/* The pixel's value in the answer for a place. */
static inline uint32_t controller_pixel(uint64_t answer)
{
    return controller_value(answer) >> 16;
}

/* The number of the patch in the answer for a place, 0 for the line. */
static inline uint32_t controller_patch(uint64_t answer)
{
    return controller_value(answer) & 0xffff;
}

/* The count of bytes in the answer of controller_write_file, or 0. */
static inline uint32_t controller_count(uint64_t answer)
{
    return controller_value(answer) & 0xffff;
}

/* The first place above the largest sample in the answer of
 * controller_write_file, where the refusal is 6; else 0. */
static inline uint32_t controller_first_above(uint64_t answer)
{
    return controller_value(answer) >> 16;
}

/*
 * Labels the section at a height: the pixels at or below it.
 *
 *   k    the height, 0 to 255
 *   out  lent output of at least n entries
 *
 * The value is the number of components. After success the first n entries
 * of `out` are labels: 0 outside the section, else the number of the
 * component, from 1 by first place.
 *
 * Refusals, in this order: 7, 3, 8, 9 (out_len below n, or work_len below
 * 5 n).
 */
uint64_t controller_label_section(
    uint32_t adjacency, uint32_t width, uint32_t height,
    const uint8_t *pixels, size_t pixels_len, uint8_t k,
    uint16_t *out, size_t out_len, uint16_t *work, size_t work_len);

/*
 * Makes the component tree of a picture.
 *
 *   heights, fathers, firsts, map  lent lists of at least n entries each
 *
 * The value is the number of nodes. They are numbered from 0 by height, then
 * by first place. After success as many entries of `heights`, `fathers` and
 * `firsts` are the nodes' heights, fathers (65,535 for the root) and first
 * places, and the first n entries of `map` the node of each place.
 *
 * Refusals, in this order: 7, 3, 8, 9 (a list below n, or work_len below
 * 5 n).
 */
uint64_t controller_component_tree(
    uint32_t adjacency, uint32_t width, uint32_t height,
    const uint8_t *pixels, size_t pixels_len,
    uint8_t *heights, size_t heights_len,
    uint16_t *fathers, size_t fathers_len,
    uint16_t *firsts, size_t firsts_len,
    uint16_t *map, size_t map_len, uint16_t *work, size_t work_len);

/*
 * Checks that a lent tree is that of the picture.
 *
 *   count  the number of its nodes
 *   heights, fathers, firsts, map  its lists, of at least n entries each;
 *          read only, they may lie in flash
 *
 * The value is 0.
 *
 * Refusals, in this order: 7, 3, 8, 9 (a list below n, or work_len below
 * 5 n), 11.
 */
uint64_t controller_check_tree(
    uint32_t adjacency, uint32_t width, uint32_t height,
    const uint8_t *pixels, size_t pixels_len, uint32_t count,
    const uint8_t *heights, size_t heights_len,
    const uint16_t *fathers, size_t fathers_len,
    const uint16_t *firsts, size_t firsts_len,
    const uint16_t *map, size_t map_len, uint16_t *work, size_t work_len);

/*
 * Answers the pass between two places: the least height at which they are in
 * one component. It is read off a lent tree, as for controller_check_tree.
 *
 *   x, y  the places, 0 to n - 1
 *
 * The value is the pass.
 *
 * Refusals, in this order: 7, 3, 8, 9 (a list below n, or work_len below
 * 5 n), 10 (x or y), 11.
 */
uint64_t controller_pass_between(
    uint32_t adjacency, uint32_t width, uint32_t height,
    const uint8_t *pixels, size_t pixels_len, uint32_t count,
    const uint8_t *heights, size_t heights_len,
    const uint16_t *fathers, size_t fathers_len,
    const uint16_t *firsts, size_t firsts_len,
    const uint16_t *map, size_t map_len, uint32_t x, uint32_t y,
    uint16_t *work, size_t work_len);

/*
 * Tells whether the pixel at a place is lowerable.
 *
 *   place  0 to n - 1
 *
 * The value is 1 for yes, 0 for no.
 *
 * Refusals, in this order: 7, 3, 8, 9 (work_len below 5 n), 10.
 */
uint64_t controller_is_lowerable(
    uint32_t adjacency, uint32_t width, uint32_t height,
    const uint8_t *pixels, size_t pixels_len, uint32_t place,
    uint16_t *work, size_t work_len);

/*
 * Makes the watershed of a picture.
 *
 *   out  lent output of at least n bytes
 *
 * The value is 0. After success the first n bytes of `out` are the pixels of
 * the watershed.
 *
 * Refusals, in this order: 7, 3, 8, 9 (out_len below n, or work_len below
 * 5 n).
 */
uint64_t controller_watershed_of(
    uint32_t adjacency, uint32_t width, uint32_t height,
    const uint8_t *pixels, size_t pixels_len,
    uint8_t *out, size_t out_len, uint16_t *work, size_t work_len);

/*
 * Fills the dark parts of a picture that have fewer than s pixels (standard
 * term: area closing).
 *
 *   s    the least size of a part in pixels, 1 to n
 *   out  lent output of at least n bytes
 *
 * The value is 0. After success the first n bytes of `out` are the filled
 * values of the pixels: of each one the least height at which its component
 * has at least s pixels. They are a picture of the same sides, which
 * controller_watershed_of takes; its output is other memory.
 *
 * Refusals, in this order: 7, 3, 8, 9 (out_len below n, or work_len below
 * 5 n), 13.
 */
uint64_t controller_fill_small_parts(
    uint32_t adjacency, uint32_t width, uint32_t height,
    const uint8_t *pixels, size_t pixels_len, uint32_t s,
    uint8_t *out, size_t out_len, uint16_t *work, size_t work_len);

/*
 * Answers what is at a place of a picture. The patches are the minima of
 * this picture itself, numbered from 1 by first place.
 *
 *   place  0 to n - 1
 *
 * The upper 16 bits of the value are the pixel's value (controller_pixel),
 * the lower 16 the number of its patch, or 0 if the pixel is on the line
 * (controller_patch).
 *
 * Refusals, in this order: 7, 3, 8, 9 (work_len below 5 n), 10.
 */
uint64_t controller_query_place(
    uint32_t adjacency, uint32_t width, uint32_t height,
    const uint8_t *pixels, size_t pixels_len, uint32_t place,
    uint16_t *work, size_t work_len);

/*
 * Answers which patch a touch at a place of a picture belongs to, by one of
 * the two setting handbooks. The patches are those of controller_query_place:
 * for the numbers of the hold list hand over the watershed
 * (controller_watershed_of), and not the camera's picture.
 *
 *   handbook  4: a touch on the line belongs to no patch, and the answer is
 *             that of controller_query_place. 5: it belongs to the patch with
 *             the lowest pass from the place, among equals to the one with
 *             the lowest number. The pass to a patch is that to any of its
 *             pixels. Inside a patch both answer that patch
 *   place     0 to n - 1
 *
 * The upper 16 bits of the value are the pixel's value (controller_pixel),
 * the lower 16 the number of the patch, or 0 for none (controller_patch).
 *
 * Refusals, in this order: 14, 7, 3, 8, 9 (work_len below 5 n), 10.
 */
uint64_t controller_touch_place(
    uint32_t handbook, uint32_t adjacency, uint32_t width, uint32_t height,
    const uint8_t *pixels, size_t pixels_len, uint32_t place,
    uint16_t *work, size_t work_len);

/*
 * Lists the figures of the patches of a picture, the patch of number i in
 * entry i - 1 of each list.
 *
 *   sizes, heights, depths, columns, rows  lent lists of at least one entry
 *          a patch each; 800 are enough for every picture. Heights and depths
 *          are at most 255, and have 16-bit entries like the others
 *
 * The value is the number of patches. After success as many entries of each
 * list are the patches' sizes in pixels, heights, depths, sums of columns
 * and sums of rows. A depth is the lowest pass to any deeper patch less the
 * height; deeper is a lesser height, or the same with a smaller number. The
 * deepest patch has the largest pixel less its height.
 *
 * Refusals, in this order: 7, 3, 8, 9 (work_len below 5 n, or a list with
 * fewer entries than there are patches).
 */
uint64_t controller_list_patches(
    uint32_t adjacency, uint32_t width, uint32_t height,
    const uint8_t *pixels, size_t pixels_len,
    uint16_t *sizes, size_t sizes_len,
    uint16_t *heights, size_t heights_len,
    uint16_t *depths, size_t depths_len,
    uint16_t *columns, size_t columns_len,
    uint16_t *rows, size_t rows_len, uint16_t *work, size_t work_len);

/*
 * Saves a picture as a P5 file with the shortest header.
 *
 *   largest  the largest sample, 1 to 255
 *   out      lent output of at least as many bytes as the file has; 1,613
 *            are enough for every picture
 *
 * The file is the letters P5, byte 10, the width, a space, the height, byte
 * 10, the largest sample, byte 10, and the n pixels. Its numbers are decimal
 * digits with no leading zeros.
 *
 * The value is the count of the file's bytes (controller_count). After
 * success the first bytes of `out`, as many as that, are the file. Of a
 * refusal 6 the upper 16 bits of the value are the first place above the
 * largest sample (controller_first_above).
 *
 * Refusals, in this order: 3, 4, 8, 6, 9 (out_len below that count).
 */
uint64_t controller_write_file(
    uint32_t width, uint32_t height, uint32_t largest,
    const uint8_t *pixels, size_t pixels_len,
    uint8_t *out, size_t out_len);

/*
 * Stores the rows of a picture: the even rows first, and each pixel but the
 * first of a row as its difference from its left neighbour.
 *
 *   out  lent output of at least n bytes
 *
 * The value is 0. After success the first n bytes of `out` are the stored
 * form: rows 0, 2, 4 and so on, then rows 1, 3, 5 and so on; of each row the
 * first pixel as it is, then each pixel less its left neighbour in the
 * picture, modulo 256.
 *
 * Refusals, in this order: 3, 8, 9 (out_len below n).
 */
uint64_t controller_store_rows(
    uint32_t width, uint32_t height,
    const uint8_t *pixels, size_t pixels_len,
    uint8_t *out, size_t out_len);

/*
 * The way back: restores the picture of a stored form. Every n bytes are the
 * stored form of exactly one picture with these sides.
 *
 *   stored  the stored form, n bytes; read only, it may lie in flash
 *   out     lent output of at least n bytes
 *
 * The value is 0. After success the first n bytes of `out` are the pixels of
 * that picture.
 *
 * Refusals, in this order: 3, 8 (stored_len is not n), 9 (out_len below n).
 */
uint64_t controller_restore_rows(
    uint32_t width, uint32_t height,
    const uint8_t *stored, size_t stored_len,
    uint8_t *out, size_t out_len);

#ifdef __cplusplus
}
#endif

#endif
