/* The component tree in blocks of n cells: heights, fathers, map, first places. */

#ifndef TREE_H
#define TREE_H

#include "geometry.h"

/* Builds the tree in 4 n cells of work with n cells of union-find; answers the number of nodes. */
unsigned build_tree(struct grid g, const uint8_t *restrict pixels,
                    uint16_t *restrict work, uint16_t *restrict cells);

/* The node at which the climbs from two nodes meet. */
static inline unsigned meeting_node(const uint16_t *fathers, unsigned i, unsigned j)
{
    while (i != j) {
        if (i < j)
            i = fathers[i];
        else
            j = fathers[j];
    }
    return i;
}

#endif
