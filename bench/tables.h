/* The times that are measured, and the tables in which they are printed. */

#ifndef TABLES_H
#define TABLES_H

#include "pictures.h"
#include "timing.h"

#include <stdint.h>

#define SIDES 4

/* The filling has as many least sizes; all are at most n, also at the least side. */
#define SIZES 4

enum {
    LABEL_MEDIAN, LABEL_255, LOWERABLE, TREE, CHECK, PASS, WATERSHED, QUERY,
    TOUCH_4, TOUCH_5, PATCHES, FILL_2, FILL_12, FILL_HALF, FILL_N, CALLS
};

/* The touch by each handbook beside the place query, and the query again, which shows how far two
 * times of one call differ. */
enum { FIRST_QUERY, TOUCH_BY_5, TOUCH_BY_4, SECOND_QUERY, BESIDE_QUERY };

extern const uint32_t adjacencies[2];
extern const unsigned sides[SIDES];
extern const char *const call_names[CALLS];
extern const unsigned calls_beside_query[BESIDE_QUERY];

/* The least times in seconds of the tree, of the place query, of the list of patches and of the fillings. */
struct against_tree {
    double tree, query, patches, fill[SIZES];
};

/* By adjacency, side, picture and call. */
extern struct times table[2][SIDES][PICTURE_COUNT][CALLS];

/* By adjacency and picture, at 40 by 40. */
extern struct against_tree against_tree[2][PICTURE_COUNT];

/* The least times in seconds by adjacency, side and picture, at the first largest pixel. */
extern double beside_query[2][SIDES][PICTURE_COUNT][BESIDE_QUERY];

void print_tables(void);

#endif
