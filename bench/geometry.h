/* The limits of a picture and of its file, the neighbours of a place, and the refusals. */

#ifndef GEOMETRY_H
#define GEOMETRY_H

#include <stddef.h>
#include <stdint.h>

#define LARGEST_SIDE 40
#define LARGEST_N (LARGEST_SIDE * LARGEST_SIDE)
#define LARGEST_SAMPLE 255      /* of a file */
#define LONGEST_HEADER "P5\n40 40\n255\n"      /* of a file that is saved */
#define MOST_HEADER_BYTES (sizeof LONGEST_HEADER - 1)
#define MOST_PATCHES (LARGEST_N / 2)    /* of a checkerboard with adjacency 4 */
#define FIGURES 5               /* of a patch: size, height, depth, column sum, row sum */

struct grid {
    unsigned stride;            /* 2 for adjacency 4, 1 for adjacency 8 */
    unsigned width;
    unsigned height;
    unsigned n;
};

static inline struct grid grid_of(uint32_t a, uint32_t w, uint32_t h)
{
    return (struct grid){ a == 4 ? 2 : 1, w, h, w * h };
}

static const struct { int8_t column, row; } steps[8] = {
    { 0, -1 }, { 1, -1 }, { 1, 0 }, { 1, 1 },
    { 0, 1 }, { -1, 1 }, { -1, 0 }, { -1, -1 },
};

/* Writes the neighbours of the place x in the table's order; answers how many there are. Inner places need no test, as in ours. */
static inline unsigned neighbours(struct grid g, unsigned x, uint16_t *near)
{
    unsigned column = x % g.width, row = x / g.width, count = 0;
    if (column - 1 < g.width - 2 && row - 1 < g.height - 2) {
        for (unsigned i = 0; i < 8; i += g.stride)
            near[count++] = (uint16_t)(x + (unsigned)steps[i].row * g.width + (unsigned)steps[i].column);
        return count;
    }
    for (unsigned i = 0; i < 8; i += g.stride) {
        unsigned c = column + (unsigned)steps[i].column;
        unsigned r = row + (unsigned)steps[i].row;
        if (c < g.width && r < g.height)
            near[count++] = (uint16_t)(r * g.width + c);
    }
    return count;
}

/* The number of the first refusal that numbers and lengths decide, or 0. */
static inline unsigned fault_of(uint32_t a, uint32_t w, uint32_t h, size_t n,
                                size_t out_length, size_t work_length)
{
    if (a != 4 && a != 8)
        return 7;
    if (w < 1 || w > LARGEST_SIDE || h < 1 || h > LARGEST_SIDE)
        return 3;
    if (n != (size_t)w * h)
        return 8;
    if (out_length < n || work_length < 5 * n)
        return 9;
    return 0;
}

/* The same for a call that takes neither adjacency nor work memory: these are never refused. */
static inline unsigned fault_of_rows(uint32_t w, uint32_t h, size_t n, size_t out_length)
{
    return fault_of(4, w, h, n, out_length, SIZE_MAX);
}

/* The same for a call that takes a place and is lent no output; 10 comes last. */
static inline unsigned fault_with_place(uint32_t a, uint32_t w, uint32_t h,
                                        size_t n, uint32_t place,
                                        size_t work_length)
{
    unsigned fault = fault_of(a, w, h, n, n, work_length);
    return fault == 0 && place >= n ? 10 : fault;
}

/* The handbooks: a touch on the line belongs to no patch, or to the nearest. */
enum { NONE_ON_LINE = 4, NEAREST_ON_LINE = 5 };

/* The same for a call that takes a handbook too; 14 comes first. */
static inline unsigned fault_with_handbook(uint32_t handbook, uint32_t a, uint32_t w,
                                           uint32_t h, size_t n, uint32_t place,
                                           size_t work_length)
{
    if (handbook != NONE_ON_LINE && handbook != NEAREST_ON_LINE)
        return 14;
    return fault_with_place(a, w, h, n, place, work_length);
}

static inline size_t lesser_length(size_t a, size_t b)
{
    return a < b ? a : b;
}

/* The same for a call that is lent the four lists of a tree. */
static inline unsigned fault_with_lists(uint32_t a, uint32_t w, uint32_t h,
                                        size_t n, size_t heights_length,
                                        size_t fathers_length,
                                        size_t firsts_length,
                                        size_t map_length, size_t work_length)
{
    size_t shortest = lesser_length(lesser_length(heights_length, fathers_length),
                                    lesser_length(firsts_length, map_length));
    return fault_of(a, w, h, n, shortest, work_length);
}

static inline uint64_t refused(unsigned number)
{
    return (uint64_t)number << 32;
}

#endif
