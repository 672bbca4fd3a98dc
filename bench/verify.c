/* The check of a lent tree, which replays the builder and compares, and the pass read off it by climbing. */

#include "calls.h"
#include "tree.h"
#include "union_find.h"

#include <stdbool.h>
#include <string.h>

struct lent {
    unsigned count;
    const uint8_t *heights;
    const uint16_t *fathers, *firsts, *map;
};

/* The lent father of the node that a state names is the lent node of x. */
static inline bool agrees(const struct lent *t, unsigned state, unsigned x)
{
    return state >= SEVERAL || t->fathers[state - FIRST_NODE] == t->map[x];
}

static inline bool fathers_agree(void *tree, unsigned a, unsigned b, unsigned x)
{
    return agrees(tree, a, x) && agrees(tree, b, x);
}

/* The lent nodes of height k are its new roots, by place; answers how many nodes there are up to k, or more than the count. */
static unsigned check_nodes(struct grid g, const uint8_t *pixels,
                            const struct lent *t, uint16_t *cells,
                            unsigned k, unsigned c)
{
    unsigned begin = c;
    for (; c < t->count && t->heights[c] == k; c++) {
        unsigned f = t->firsts[c];
        if (f >= g.n || pixels[f] > k || cells[f] < SEVERAL
            || (c > begin && f <= t->firsts[c - 1]))
            return t->count + 1;
        cells[f] = (uint16_t)(FIRST_NODE + c);
    }
    return c;
}

/* Joins the pixels of height k; false if a lent father differs. */
static inline bool check_pixels(struct grid g, const uint8_t *pixels,
                                struct lent *t, uint16_t *cells, unsigned k)
{
    for (unsigned x = 0; x < g.n; x++)
        if (pixels[x] == k && !absorb(g, pixels, cells, k, x, fathers_agree, t))
            return false;
    return true;
}

/* The lent map gives the pixels of height k the nodes of their roots. */
static inline bool check_map(struct grid g, const uint8_t *pixels,
                             const struct lent *t, uint16_t *cells, unsigned k)
{
    for (unsigned x = 0; x < g.n; x++)
        if (pixels[x] == k) {
            unsigned state = cells[find(cells, x)];
            if (state >= SEVERAL || state != (unsigned)FIRST_NODE + t->map[x])
                return false;
        }
    return true;
}

static bool is_tree(struct grid g, const uint8_t *pixels, struct lent *t)
{
    uint16_t cells[LARGEST_N];
    unsigned c = 0;
    if (t->count == 0 || t->count > g.n)
        return false;
    memset(cells, 255, g.n * sizeof *cells);
    for (unsigned k = 0; k < 256; k++) {
        if (!check_pixels(g, pixels, t, cells, k))
            return false;
        c = check_nodes(g, pixels, t, cells, k, c);
        if (c > t->count || !check_map(g, pixels, t, cells, k))
            return false;
    }
    return c == t->count && t->fathers[c - 1] == NOTHING;
}

uint64_t peer_check_tree(uint32_t a, uint32_t w, uint32_t h,
    const uint8_t *pixels, size_t n, uint32_t count,
    const uint8_t *heights, size_t heights_length,
    const uint16_t *fathers, size_t fathers_length,
    const uint16_t *firsts, size_t firsts_length,
    const uint16_t *map, size_t map_length,
    uint16_t *work, size_t work_length)
{
    unsigned fault = fault_with_lists(a, w, h, n, heights_length, fathers_length,
                                      firsts_length, map_length, work_length);
    if (fault)
        return refused(fault);
    struct lent tree = { count, heights, fathers, firsts, map };
    if (!is_tree(grid_of(a, w, h), pixels, &tree))
        return refused(11);
    memset(work, 0, 5 * n * sizeof *work);
    return 0;
}

uint64_t peer_pass_between(uint32_t a, uint32_t w, uint32_t h,
    const uint8_t *pixels, size_t n, uint32_t count,
    const uint8_t *heights, size_t heights_length,
    const uint16_t *fathers, size_t fathers_length,
    const uint16_t *firsts, size_t firsts_length,
    const uint16_t *map, size_t map_length, uint32_t x, uint32_t y,
    uint16_t *work, size_t work_length)
{
    unsigned fault = fault_with_lists(a, w, h, n, heights_length, fathers_length,
                                      firsts_length, map_length, work_length);
    if (fault)
        return refused(fault);
    if (x >= n || y >= n)
        return refused(10);
    struct lent tree = { count, heights, fathers, firsts, map };
    if (!is_tree(grid_of(a, w, h), pixels, &tree))
        return refused(11);
    unsigned height = heights[meeting_node(fathers, map[x], map[y])];
    if (height < pixels[x])
        height = pixels[x];
    if (height < pixels[y])
        height = pixels[y];
    memset(work, 0, 5 * n * sizeof *work);
    return height;
}
