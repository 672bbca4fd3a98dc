/* The watershed: the tree of the picture, a winner tree over the candidates, and falls as far as a pixel may fall. */

#include "calls.h"
#include "tree.h"

#include <string.h>

enum { NO_CANDIDATE = 65535 };        /* no candidate */

unsigned long peer_falls, peer_tests;

/* The better of two candidates: of lesser value, then of smaller place. */
static inline unsigned better(const uint8_t *pixels, unsigned a, unsigned b)
{
    if (a == NO_CANDIDATE)
        return b;
    if (b == NO_CANDIDATE)
        return a;
    unsigned first = (unsigned)pixels[a] << 16 | a;
    unsigned second = (unsigned)pixels[b] << 16 | b;
    return first < second ? a : b;
}

/* Sets the leaf of x and plays the cells above it again until one stays as it is. */
static void assign(const uint8_t *restrict pixels, uint16_t *restrict winners,
                   unsigned n, unsigned x, unsigned candidate)
{
    winners[n + x] = (uint16_t)candidate;
    for (unsigned i = (n + x) / 2; i > 0; i /= 2) {
        unsigned best = better(pixels, winners[2 * i], winners[2 * i + 1]);
        if (winners[i] == best)
            return;
        winners[i] = (uint16_t)best;
    }
}

/* The height at which the climbs from the nodes of y and z meet. */
static inline unsigned meeting_height(const uint16_t *tree, unsigned n,
                                      unsigned y, unsigned z)
{
    const uint16_t *map = tree + 2 * n;
    return tree[meeting_node(tree + n, map[y], map[z])];
}

/* The lowest of x and its neighbours. */
static inline unsigned lowest(const uint8_t *restrict out, unsigned x,
                              const uint16_t *near, unsigned count)
{
    unsigned low = x;
    for (unsigned i = 0; i < count; i++)
        if (out[near[i]] < out[low])
            low = near[i];
    return low;
}

/* The value to which a pixel of value k falls, or k or more if it is not lowerable. */
static inline unsigned stop_of(const uint8_t *restrict out,
                               const uint16_t *restrict tree, unsigned n,
                               unsigned k, unsigned low,
                               const uint16_t *near, unsigned count)
{
    unsigned stop = out[low];
    for (unsigned i = 0; i < count; i++) {
        unsigned y = near[i];
        if (out[y] >= k)
            continue;
        unsigned height = meeting_height(tree, n, y, low);
        if (height > out[y] && height > stop)
            stop = height;
    }
    return stop;
}

/* Lowers x as far as it falls, if it is lowerable, and makes candidates of the neighbours that may now be lowerable. */
static inline void lower_place(struct grid g, unsigned x, uint8_t *restrict out,
                          uint16_t *restrict tree, uint16_t *restrict winners)
{
    uint16_t near[8];
    unsigned n = g.n, count = neighbours(g, x, near), k = out[x];
    unsigned low = lowest(out, x, near, count);
    unsigned stop = stop_of(out, tree, n, k, low, near, count);
#ifdef COUNT_FALLS
    peer_tests++;
    peer_falls += stop < k;
#endif
    if (stop >= k)
        return;
    out[x] = (uint8_t)stop;
    tree[2 * n + x] = tree[2 * n + low];
    for (unsigned i = 0; i < count; i++) {
        unsigned y = near[i];
        if (out[y] > stop && out[y] <= k && winners[n + y] != y)
            assign(out, winners, n, y, y);
    }
}

/* Makes every place a candidate. */
static inline void fill_winners(const uint8_t *restrict out,
                                uint16_t *restrict winners, unsigned n)
{
    for (unsigned x = 0; x < n; x++)
        winners[n + x] = (uint16_t)x;
    for (unsigned i = n; i-- > 1;)
        winners[i] = (uint16_t)better(out, winners[2 * i], winners[2 * i + 1]);
}

uint64_t peer_watershed_of(uint32_t a, uint32_t w, uint32_t h,
    const uint8_t *pixels, size_t n, uint8_t *out, size_t out_length,
    uint16_t *work, size_t work_length)
{
    unsigned fault = fault_of(a, w, h, n, out_length, work_length);
    if (fault)
        return refused(fault);
    struct grid g = grid_of(a, w, h);
    uint16_t *winners = work + 3 * n;
    /* The last block is free while the tree is built. */
    build_tree(g, pixels, work, work + 4 * n);
    memcpy(out, pixels, n);
    fill_winners(out, winners, g.n);
    for (unsigned x; (x = winners[1]) != NO_CANDIDATE;) {
        assign(out, winners, g.n, x, NO_CANDIDATE);
        lower_place(g, x, out, work, winners);
    }
    memset(work, 0, 5 * n * sizeof *work);
    return 0;
}
