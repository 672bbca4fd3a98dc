/*
 * The patches: the tree, its leaves numbered by first place, the patch of a
 * touch, and the figures of all patches.
 */

#include "calls.h"
#include "tree.h"

#include <stdbool.h>
#include <string.h>

enum {
    NEW = 65535,                /* the cell of a place that no flood has visited */
    BOTTOM = 65534              /* the cell of the place at the bottom of the stack */
};

/* The lists of figures, an entry a patch. */
struct figures {
    uint16_t *sizes, *heights, *depths, *columns, *rows;
};

/* Both bytes of the number of a node that is no leaf: 0, or a number above that of every leaf. */
enum { NO_NUMBER = 0, ABOVE_NUMBERS = 255 };

/* Numbers the leaves by first place. The cells mark the nodes that are the father of some node. */
static inline void number_leaves(unsigned n, unsigned count, int others,
                                 const uint16_t *restrict work,
                                 uint16_t *restrict cells,
                                 uint16_t *restrict numbers)
{
    const uint16_t *fathers = work + n, *map = work + 2 * n;
    const uint16_t *firsts = work + 3 * n;
    unsigned number = 0;
    memset(cells, 0, n * sizeof *cells);
    memset(numbers, others, n * sizeof *numbers);
    for (unsigned i = 0; i < count; i++)
        if (fathers[i] < n)
            cells[fathers[i]] = 1;
    for (unsigned x = 0; x < n; x++) {
        unsigned m = map[x];
        if (firsts[m] == x && cells[m] == 0)
            numbers[m] = (uint16_t)++number;
    }
}

/* The number of the patch of x, 0 on the line. */
static inline unsigned patch_at(unsigned n, const uint8_t *restrict pixels,
                                const uint16_t *restrict work,
                                const uint16_t *restrict numbers, unsigned x)
{
    unsigned node = work[2 * n + x];
    return pixels[x] == work[node] ? numbers[node] : 0;
}

/* The least number of the leaves at or below the node of x. The nodes before it hand their label,
 * the least number below them so far, to their fathers; labels lie over the numbers. */
static inline unsigned nearest_patch(unsigned n, const uint16_t *restrict work,
                                     uint16_t *restrict labels, unsigned x)
{
    const uint16_t *fathers = work + n;
    unsigned node = work[2 * n + x];
    for (unsigned i = 0; i < node; i++) {
        unsigned father = fathers[i];
        if (father < n && labels[i] < labels[father])
            labels[father] = labels[i];
    }
    return labels[node];
}

uint64_t peer_touch_place(uint32_t handbook, uint32_t a, uint32_t w, uint32_t h,
    const uint8_t *pixels, size_t n, uint32_t place,
    uint16_t *work, size_t work_length)
{
    unsigned fault = fault_with_handbook(handbook, a, w, h, n, place, work_length);
    if (fault)
        return refused(fault);
    uint16_t cells[LARGEST_N], *numbers = work + 4 * n;
    bool nearest = handbook == NEAREST_ON_LINE;
    unsigned count = build_tree(grid_of(a, w, h), pixels, work, cells);
    number_leaves((unsigned)n, count, nearest ? ABOVE_NUMBERS : NO_NUMBER,
                  work, cells, numbers);
    unsigned patch = nearest ? nearest_patch((unsigned)n, work, numbers, place)
                             : patch_at((unsigned)n, pixels, work, numbers, place);
    memset(work, 0, 5 * n * sizeof *work);
    return (uint64_t)pixels[place] << 16 | patch;
}

uint64_t peer_query_place(uint32_t a, uint32_t w, uint32_t h,
    const uint8_t *pixels, size_t n, uint32_t place,
    uint16_t *work, size_t work_length)
{
    return peer_touch_place(NONE_ON_LINE, a, w, h, pixels, n, place, work, work_length);
}

/* Visits the flat zone of x, the stack linked in the cells; true if no neighbour is lower. */
static inline bool flood_zone(struct grid g, const uint8_t *restrict pixels,
                              unsigned x, uint16_t *restrict cells)
{
    unsigned k = pixels[x], top = x;
    bool lowest = true;
    cells[x] = BOTTOM;
    while (top != BOTTOM) {
        uint16_t near[8];
        unsigned count = neighbours(g, top, near);
        top = cells[top];
        for (unsigned i = 0; i < count; i++) {
            unsigned y = near[i];
            if (pixels[y] < k) {
                lowest = false;
            } else if (pixels[y] == k && cells[y] == NEW) {
                cells[y] = (uint16_t)top;
                top = y;
            }
        }
    }
    return lowest;
}

static inline unsigned count_minima(struct grid g, const uint8_t *restrict pixels,
                                    uint16_t *restrict cells)
{
    unsigned count = 0;
    memset(cells, 255, g.n * sizeof *cells);
    for (unsigned x = 0; x < g.n; x++)
        if (cells[x] == NEW && flood_zone(g, pixels, x, cells))
            count++;
    return count;
}

static inline unsigned largest_pixel(unsigned n, const uint8_t *pixels)
{
    unsigned most = 0;
    for (unsigned x = 0; x < n; x++)
        if (pixels[x] > most)
            most = pixels[x];
    return most;
}

/* Puts the climb of each leaf in the place of its father: the height at which it joins a leaf of a smaller number, which
 * is deeper, or the largest pixel if it joins none. The label of a node is the least leaf below it; labels lie over the
 * numbers of the leaves. The last node with a leaf's label is the highest one, and its father's height stays. */
static inline void put_climbs(unsigned n, unsigned count, unsigned most,
                              uint16_t *restrict work)
{
    uint16_t *fathers = work + n, *labels = work + 4 * n;
    for (unsigned i = 0; i < count; i++)
        labels[i] = (uint16_t)i;
    for (unsigned i = 0; i < count; i++) {
        unsigned father = fathers[i], leaf = labels[i];
        if (father < n && leaf < labels[father])
            labels[father] = (uint16_t)leaf;
        fathers[leaf] = (uint16_t)(father < n ? work[father] : most);
    }
}

/* The depth of a patch is that of its leaf below its climb, which stands in the place of the leaf's father. */
static inline void put_heights(unsigned n, const uint8_t *restrict pixels,
                               const uint16_t *restrict work,
                               const uint16_t *restrict patches,
                               uint16_t *restrict heights,
                               uint16_t *restrict depths)
{
    const uint16_t *climbs = work + n, *map = work + 2 * n;
    unsigned count = 0;
    for (unsigned x = 0; x < n; x++) {
        if (patches[x] != count + 1)
            continue;
        heights[count] = pixels[x];
        depths[count] = (uint16_t)(climbs[map[x]] - pixels[x]);
        count++;
    }
}

/* Adds places of one row and one patch to the sums of their patch, none for the line. */
static inline void add_run(struct figures f, unsigned patch, unsigned size,
                           unsigned columns, unsigned row)
{
    if (patch == 0)
        return;
    f.sizes[patch - 1] += (uint16_t)size;
    f.columns[patch - 1] += (uint16_t)columns;
    f.rows[patch - 1] += (uint16_t)(size * row);
}

/* Run by run, since a sum in memory waits for the one before it. */
static inline void put_sums(struct grid g, unsigned count,
                            const uint16_t *patches, struct figures f)
{
    memset(f.sizes, 0, count * sizeof *f.sizes);
    memset(f.columns, 0, count * sizeof *f.columns);
    memset(f.rows, 0, count * sizeof *f.rows);
    for (unsigned row = 0; row < g.height; row++) {
        unsigned patch = 0, size = 0, columns = 0;
        for (unsigned column = 0; column < g.width; column++) {
            unsigned next = patches[row * g.width + column];
            if (next == 0)
                continue;
            if (next != patch) {
                add_run(f, patch, size, columns, row);
                patch = next;
                size = columns = 0;
            }
            size++;
            columns += column;
        }
        add_run(f, patch, size, columns, row);
    }
}

/* The figures of so many patches. The cells may hold anything. */
static inline void put_figures(struct grid g, const uint8_t *pixels,
                               unsigned count, uint16_t *work,
                               uint16_t *cells, struct figures f)
{
    uint16_t *numbers = work + 4 * g.n;
    unsigned nodes = build_tree(g, pixels, work, cells);
    number_leaves(g.n, nodes, NO_NUMBER, work, cells, numbers);
    for (unsigned x = 0; x < g.n; x++)
        cells[x] = (uint16_t)patch_at(g.n, pixels, work, numbers, x);
    put_climbs(g.n, nodes, largest_pixel(g.n, pixels), work);
    put_heights(g.n, pixels, work, cells, f.heights, f.depths);
    put_sums(g, count, cells, f);
}

uint64_t peer_list_patches(uint32_t a, uint32_t w, uint32_t h,
    const uint8_t *pixels, size_t n,
    uint16_t *sizes, size_t sizes_length,
    uint16_t *heights, size_t heights_length,
    uint16_t *depths, size_t depths_length,
    uint16_t *columns, size_t columns_length,
    uint16_t *rows, size_t rows_length, uint16_t *work, size_t work_length)
{
    unsigned fault = fault_of(a, w, h, n, n, work_length);
    if (fault)
        return refused(fault);
    size_t shortest = lesser_length(
        lesser_length(lesser_length(sizes_length, heights_length), depths_length),
        lesser_length(columns_length, rows_length));
    struct grid g = grid_of(a, w, h);
    uint16_t cells[LARGEST_N];
    unsigned count = count_minima(g, pixels, cells);
    if (count > shortest)
        return refused(9);
    put_figures(g, pixels, count, work, cells,
                (struct figures){ sizes, heights, depths, columns, rows });
    memset(work, 0, 5 * n * sizeof *work);
    return count;
}
