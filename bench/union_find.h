/*
 * Union-find in cells: below FIRST_NODE a parent, which is a smaller place; from
 * FIRST_NODE on a root with its state. The builder and the check join the pixels of
 * one height after the other by it.
 */

#ifndef UNION_FIND_H
#define UNION_FIND_H

#include "geometry.h"

#include <stdbool.h>
#include <stdint.h>

enum {
    FIRST_NODE = 2048,               /* FIRST_NODE + t: goes down to the node t */
    LISTED = 65533,             /* a new root that is in the list already */
    SEVERAL = 65534,            /* holds several components of the height below */
    NOTHING = 65535                /* holds none */
};

/* The root of a place, with path splitting. */
static inline unsigned find(uint16_t *cells, unsigned x)
{
    unsigned parent;
    while ((parent = cells[x]) < FIRST_NODE) {
        unsigned above = cells[parent];
        if (above < FIRST_NODE)
            cells[x] = (uint16_t)above;
        x = parent;
    }
    return x;
}

/* What happens to a tree where two roots with the states a and b, which both hold lower places, are joined at x; false if the tree is wrong there. */
typedef bool two_below(void *tree, unsigned a, unsigned b, unsigned x);

/* Links the root hi below the root lo, unless the tree is wrong there. */
static inline bool link_roots(uint16_t *cells, unsigned lo, unsigned hi, unsigned x,
                        two_below *meet, void *tree)
{
    unsigned a = cells[lo], b = cells[hi], state;
    if (a == NOTHING) {
        state = b;
    } else if (b == NOTHING) {
        state = a;
    } else {
        if (!meet(tree, a, b, x))
            return false;
        state = SEVERAL;
    }
    cells[hi] = (uint16_t)lo;
    cells[lo] = (uint16_t)state;
    return true;
}

/* Joins x, of value k, with its neighbours that are lower, or of the same value and before it; false as soon as the tree is wrong. */
static inline bool absorb(struct grid g, const uint8_t *restrict pixels,
                          uint16_t *restrict cells, unsigned k, unsigned x,
                          two_below *meet, void *tree)
{
    uint16_t near[8];
    unsigned count = neighbours(g, x, near);
    unsigned root = find(cells, x);
    for (unsigned i = 0; i < count; i++) {
        unsigned y = near[i];
        if (pixels[y] > k || (pixels[y] == k && y > x))
            continue;
        unsigned other = find(cells, y);
        if (other < root) {
            if (!link_roots(cells, other, root, x, meet, tree))
                return false;
            root = other;
        } else if (other > root && !link_roots(cells, root, other, x, meet, tree)) {
            return false;
        }
    }
    return true;
}

#endif
