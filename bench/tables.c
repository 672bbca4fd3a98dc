/* The tables of times. */

#include "tables.h"

#include <stdio.h>

#define MOST_OVER_QUERY 1.1     /* the bar for a touch */

const uint32_t adjacencies[2] = { 4, 8 };
const unsigned sides[SIDES] = { 5, 10, 20, 40 };
const char *const call_names[CALLS] = {
    "label_section, median", "label_section, 255", "is_lowerable",
    "component_tree", "check_tree", "pass_between", "watershed_of",
    "query_place", "touch_place, 4", "touch_place, 5", "list_patches",
    "fill_small_parts, 2", "fill_small_parts, 12", "fill_small_parts, n / 2",
    "fill_small_parts, n",
};
const unsigned calls_beside_query[BESIDE_QUERY] = { QUERY, TOUCH_5, TOUCH_4, QUERY };

struct times table[2][SIDES][PICTURE_COUNT][CALLS];
struct against_tree against_tree[2][PICTURE_COUNT];
double beside_query[2][SIDES][PICTURE_COUNT][BESIDE_QUERY];

static void print_head(const char *first)
{
    printf("\n| %s |", first);
    for (unsigned call = 0; call < CALLS; call++)
        printf(" %s |", call_names[call]);
    printf("\n|---|");
    for (unsigned call = 0; call < CALLS; call++)
        printf("---|");
    printf("\n");
}

static double ratio(struct times t)
{
    return t.ours / t.peer;
}

static double microseconds(struct times t)
{
    return t.ours * 1e6;
}

/* For each picture and call at 40 by 40 a value with this many decimals. */
static void print_table(const char *title, unsigned adjacency,
                        double (*value)(struct times), int decimals)
{
    printf("\n%s, 40 by 40, adjacency %u\n", title, adjacencies[adjacency]);
    print_head("picture");
    for (unsigned p = 0; p < PICTURE_COUNT; p++) {
        printf("| %s |", picture_names[p]);
        for (unsigned call = 0; call < CALLS; call++)
            printf(" %.*f |", decimals,
                   value(table[adjacency][SIDES - 1][p][call]));
        printf("\n");
    }
}

/* Our time for one picture, or for PICTURE_COUNT the largest of all pictures. */
static double time_of(unsigned adjacency, unsigned s, unsigned picture, unsigned call)
{
    double most = 0;
    for (unsigned p = 0; p < PICTURE_COUNT; p++)
        if ((picture == p || picture == PICTURE_COUNT)
            && table[adjacency][s][p][call].ours > most)
            most = table[adjacency][s][p][call].ours;
    return most;
}

/* The time of one picture at each side, or for PICTURE_COUNT the largest time of all pictures. */
static void print_growth(unsigned adjacency, unsigned picture)
{
    printf("\nTime of ours in nanoseconds a pixel, %s, adjacency %u\n",
           picture < PICTURE_COUNT ? picture_names[picture]
           : "largest of all pictures", adjacencies[adjacency]);
    print_head("side");
    for (unsigned s = 0; s < SIDES; s++) {
        printf("| %u |", sides[s]);
        for (unsigned call = 0; call < CALLS; call++)
            printf(" %.1f |", time_of(adjacency, s, picture, call) * 1e9
                   / (sides[s] * sides[s]));
        printf("\n");
    }
}

static void print_against_tree(void)
{
    printf("\nTime of query_place and of list_patches over time of component_tree, ours, 40 by 40\n");
    printf("\n| picture | query_place, 4 | query_place, 8 | list_patches, 4 | list_patches, 8 |\n");
    printf("|---|---|---|---|---|\n");
    for (unsigned p = 0; p < PICTURE_COUNT; p++) {
        printf("| %s |", picture_names[p]);
        for (unsigned adjacency = 0; adjacency < 2; adjacency++)
            printf(" %.2f |", against_tree[adjacency][p].query / against_tree[adjacency][p].tree);
        for (unsigned adjacency = 0; adjacency < 2; adjacency++)
            printf(" %.2f |", against_tree[adjacency][p].patches / against_tree[adjacency][p].tree);
        printf("\n");
    }
}

/* A column for each least size and adjacency; then the largest entry. */
static void print_fill_against_tree(void)
{
    double most = 0;
    printf("\nTime of fill_small_parts over time of component_tree, ours, 40 by 40\n");
    printf("\n| picture | s = 2, 4 | s = 2, 8 | s = 12, 4 | s = 12, 8 | s = n / 2, 4 | s = n / 2, 8 | s = n, 4 | s = n, 8 |\n");
    printf("|---|---|---|---|---|---|---|---|---|\n");
    for (unsigned p = 0; p < PICTURE_COUNT; p++) {
        printf("| %s |", picture_names[p]);
        for (unsigned size = 0; size < SIZES; size++)
            for (unsigned adjacency = 0; adjacency < 2; adjacency++) {
                const struct against_tree *t = &against_tree[adjacency][p];
                double over = t->fill[size] / t->tree;
                most = over > most ? over : most;
                printf(" %.2f |", over);
            }
        printf("\n");
    }
    printf("\nThe largest is %.2f.\n", most);
}

static double over_query(unsigned adjacency, unsigned s, unsigned picture, unsigned beside)
{
    const double *least = beside_query[adjacency][s][picture];
    return least[beside] / least[FIRST_QUERY];
}

/* The picture with the largest ratio to the query. */
static unsigned costliest(unsigned adjacency, unsigned s, unsigned beside)
{
    unsigned most = 0;
    for (unsigned p = 1; p < PICTURE_COUNT; p++)
        if (over_query(adjacency, s, p, beside) > over_query(adjacency, s, most, beside))
            most = p;
    return most;
}

/* The largest ratio to the query of all pictures at all sides with both adjacencies. */
static double most_over_query(unsigned beside)
{
    double most = 0;
    for (unsigned adjacency = 0; adjacency < 2; adjacency++)
        for (unsigned s = 0; s < SIDES; s++) {
            unsigned p = costliest(adjacency, s, beside);
            double over = over_query(adjacency, s, p, beside);
            most = over > most ? over : most;
        }
    return most;
}

static void print_over_query(void)
{
    printf("\nTime of touch_place over time of query_place, and of query_place over itself, ours,"
           " the largest of all pictures\n");
    printf("\n| side, adjacency | touch_place, 5 | touch_place, 4 | query_place |\n");
    printf("|---|---|---|---|\n");
    for (unsigned adjacency = 0; adjacency < 2; adjacency++)
        for (unsigned s = 0; s < SIDES; s++) {
            printf("| %u, %u |", sides[s], adjacencies[adjacency]);
            for (unsigned beside = TOUCH_BY_5; beside < BESIDE_QUERY; beside++) {
                unsigned p = costliest(adjacency, s, beside);
                printf(" %.3f (%s) |", over_query(adjacency, s, p, beside), picture_names[p]);
            }
            printf("\n");
        }
    printf("\nThe largest is %.3f by handbook 5 and %.3f by handbook 4 (the bar is %.1f);"
           " that of query_place over itself is %.3f.\n", most_over_query(TOUCH_BY_5),
           most_over_query(TOUCH_BY_4), MOST_OVER_QUERY, most_over_query(SECOND_QUERY));
}

void print_tables(void)
{
    for (unsigned adjacency = 0; adjacency < 2; adjacency++) {
        print_table("Time of ours over time of the peer", adjacency, ratio, 2);
        print_table("Time of ours in microseconds", adjacency, microseconds, 1);
        print_growth(adjacency, NOISE);
        print_growth(adjacency, PICTURE_COUNT);
    }
    print_against_tree();
    print_fill_against_tree();
    print_over_query();
}
