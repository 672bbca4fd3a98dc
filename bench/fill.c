/*
 * Fills the dark parts of fewer than s pixels: chains of equal value and union-find, one height
 * after the other. A root counts the places of its class up to s. When the pixels of a height have
 * joined, the classes that count s are settled there: they are joined no more.
 */

#include "calls.h"
#include "chains.h"
#include "union_find.h"

#include <string.h>

/* The state of a root: FIRST_NODE + c counts c places, SETTLED + k is settled at the height k. */
enum { SETTLED = 4096 };

/* The state of two classes together, of which neither is settled; enough is the state that counts s. */
static inline unsigned together(unsigned a, unsigned b, unsigned enough)
{
    unsigned state = a + b - FIRST_NODE;
    return state < enough ? state : enough;
}

/* Links two roots, the greater below the smaller; answers the smaller. */
static inline unsigned link_counted(uint16_t *cells, unsigned a, unsigned b, unsigned state)
{
    unsigned lo = a < b ? a : b, hi = a < b ? b : a;
    cells[hi] = (uint16_t)lo;
    cells[lo] = (uint16_t)state;
    return lo;
}

/* Joins x, of value k and alone in its class, with its neighbours that are lower, or of the same value and before it. Beside a settled class there are enough places. */
static inline void join_place(struct grid g, const uint8_t *restrict pixels,
                              uint16_t *restrict cells, unsigned enough, unsigned k,
                              unsigned x)
{
    uint16_t near[8];
    unsigned count = neighbours(g, x, near), root = x;
    for (unsigned i = 0; i < count; i++) {
        unsigned y = near[i];
        if (pixels[y] > k || (pixels[y] == k && y > x))
            continue;
        unsigned other = find(cells, y), state = cells[other];
        if (other == root)
            continue;
        if (state >= SETTLED)
            cells[root] = (uint16_t)enough;
        else
            root = link_counted(cells, other, root, together(state, cells[root], enough));
    }
}

/* Leaves in cells a forest whose roots are all settled; next and cells have n entries. */
static void settle_all(struct grid g, const uint8_t *restrict pixels, unsigned s,
                       uint16_t *restrict next, uint16_t *restrict cells)
{
    unsigned n = g.n, enough = FIRST_NODE + s;
    uint16_t heads[VALUES];

    chain_places(n, pixels, &heads, next);
    for (unsigned x = 0; x < n; x++)
        cells[x] = FIRST_NODE + 1;
    for (unsigned k = 0; k < VALUES; k++) {
        for (unsigned x = heads[k]; x < n; x = next[x])
            join_place(g, pixels, cells, enough, k, x);
        for (unsigned x = heads[k]; x < n; x = next[x]) {
            unsigned root = find(cells, x);
            if (cells[root] == enough)
                cells[root] = (uint16_t)(SETTLED + k);
        }
    }
}

uint64_t peer_fill_small_parts(uint32_t a, uint32_t w, uint32_t h,
    const uint8_t *pixels, size_t n, uint32_t s,
    uint8_t *out, size_t out_length, uint16_t *work, size_t work_length)
{
    unsigned fault = fault_of(a, w, h, n, out_length, work_length);
    if (fault)
        return refused(fault);
    if (s < 1 || s > n)
        return refused(13);
    uint16_t *cells = work + n;
    settle_all(grid_of(a, w, h), pixels, s, work, cells);
    for (unsigned x = 0; x < n; x++)
        out[x] = (uint8_t)(cells[find(cells, x)] - SETTLED);
    memset(work, 0, 5 * n * sizeof *work);
    return 0;
}
