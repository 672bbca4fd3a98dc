/*
 * Compares our calls with their peers: first that every result and every
 * lent entry is the same on every picture, then the times, ours and the
 * peer's in turn, in one process. The time of a call is the least of all
 * rounds, in processor time of the thread.
 *
 * With the argument `once` each call runs once at 40 by 40, ours and then the
 * peer's, in the function `counted`, for a tool that counts instructions; a
 * line for each pair names it. With `growth` each of ours runs once on noise
 * at each side. With `touches` our place query and the touch by each handbook
 * run once on every picture at each side.
 */

#include "calls.h"
#include "geometry.h"
#include "pictures.h"
#include "tables.h"
#include "timing.h"

#include <stdio.h>
#include <stdlib.h>
#include <string.h>

#define BESIDE_ROUNDS 500
#define BESIDE_CALLS 10
#define FILLING 171             /* a byte of memory that no call wrote */
#define LENGTH_OF(array) (sizeof(array) / sizeof *(array))

/* All memory that a call may be lent. */
struct memory {
    uint8_t heights[LARGEST_N], bytes[LARGEST_N];
    uint16_t fathers[LARGEST_N], firsts[LARGEST_N], map[LARGEST_N];
    uint16_t labels[LARGEST_N], work[5 * LARGEST_N];
    uint16_t figures[FIGURES][MOST_PATCHES];
};

static uint8_t pixels[LARGEST_N];
static struct memory ours, peer;
static uint32_t a, w, n, count, place;
static uint32_t sizes[SIZES];           /* least sizes of parts */
static uint32_t handbooks[] = { NONE_ON_LINE, NEAREST_ON_LINE };
static size_t room = MOST_PATCHES;      /* of each list of figures */
static uint8_t median;

static uint8_t median_pixel(void)
{
    unsigned tally[256] = { 0 }, below = 0, k = 0;
    for (unsigned x = 0; x < n; x++)
        tally[pixels[x]]++;
    while ((below += tally[k]) * 2 < n)
        k++;
    return (uint8_t)k;
}

/* The place of the first largest pixel. Its node is the root, so that no touch by handbook 5 costs
 * more; it is on the line unless the picture is flat. */
static uint32_t largest_place(void)
{
    uint32_t best = 0;
    for (uint32_t x = 0; x < n; x++)
        if (pixels[x] > pixels[best])
            best = x;
    return best;
}

static uint64_t touch_place(uint32_t handbook, int is_ours, struct memory *m)
{
    return (is_ours ? controller_touch_place : peer_touch_place)(handbook, a, w, w,
        pixels, n, place, m->work, 5 * n);
}

static uint64_t list_patches(int is_ours, struct memory *m)
{
    return (is_ours ? controller_list_patches : peer_list_patches)(a, w, w,
        pixels, n, m->figures[0], room, m->figures[1], room,
        m->figures[2], room, m->figures[3], room, m->figures[4], room,
        m->work, 5 * n);
}

static uint64_t run(unsigned call, int is_ours, struct memory *m)
{
    switch (call) {
    case LABEL_MEDIAN:
    case LABEL_255:
        return (is_ours ? controller_label_section : peer_label_section)(a, w, w,
            pixels, n, call == LABEL_255 ? 255 : median, m->labels, n,
            m->work, 5 * n);
    case LOWERABLE:
        return (is_ours ? controller_is_lowerable : peer_is_lowerable)(a, w, w,
            pixels, n, place, m->work, 5 * n);
    case TREE:
        return (is_ours ? controller_component_tree : peer_component_tree)(a, w, w,
            pixels, n, m->heights, n, m->fathers, n, m->firsts, n, m->map, n,
            m->work, 5 * n);
    case CHECK:
        return (is_ours ? controller_check_tree : peer_check_tree)(a, w, w,
            pixels, n, count, m->heights, n, m->fathers, n, m->firsts, n,
            m->map, n, m->work, 5 * n);
    case PASS:
        return (is_ours ? controller_pass_between : peer_pass_between)(a, w, w,
            pixels, n, count, m->heights, n, m->fathers, n, m->firsts, n,
            m->map, n, 0, n - 1, m->work, 5 * n);
    case WATERSHED:
        return (is_ours ? controller_watershed_of : peer_watershed_of)(a, w, w,
            pixels, n, m->bytes, n, m->work, 5 * n);
    case QUERY:
        return (is_ours ? controller_query_place : peer_query_place)(a, w, w,
            pixels, n, place, m->work, 5 * n);
    case TOUCH_4:
    case TOUCH_5:
        return touch_place(handbooks[call - TOUCH_4], is_ours, m);
    case PATCHES:
        return list_patches(is_ours, m);
    default:
        return (is_ours ? controller_fill_small_parts : peer_fill_small_parts)(a, w, w,
            pixels, n, sizes[call - FILL_2], m->bytes, n, m->work, 5 * n);
    }
}

static uint64_t run_measured(unsigned call, int is_ours)
{
    return run(call, is_ours, is_ours ? &ours : &peer);
}

/* Fills what calls only write: an entry that an earlier call left there would hide a wrong one. */
static void fill(struct memory *m)
{
    memset(m->bytes, FILLING, sizeof m->bytes);
    memset(m->labels, FILLING, sizeof m->labels);
    memset(m->work, FILLING, sizeof m->work);
    memset(m->figures, FILLING, sizeof m->figures);
}

/* Runs a call of both and ends the program if an answer or an entry differs. */
static void same(unsigned call, unsigned picture)
{
    fill(&ours);
    fill(&peer);
    uint64_t first = run(call, 1, &ours), second = run(call, 0, &peer);
    if (first == second && memcmp(&ours, &peer, sizeof ours) == 0)
        return;
    printf("%s differs: %s, side %u, adjacency %u, place %u, sizes from %u, handbooks from %u:"
           " %llx %llx\n", call_names[call], picture_names[picture], w, a, place, sizes[0],
           handbooks[0], (unsigned long long)first, (unsigned long long)second);
    exit(1);
}

static void take_sizes(void)
{
    sizes[0] = 2;
    sizes[1] = 12;
    sizes[2] = n / 2;
    sizes[3] = n;
}

/* Takes a picture and makes its tree. */
static void take(unsigned picture, unsigned side, uint32_t adjacency)
{
    a = adjacency;
    w = side;
    n = w * w;
    make_picture(picture, w, pixels);
    median = median_pixel();
    place = largest_place();
    take_sizes();
    memset(&ours, FILLING, sizeof ours);
    peer = ours;
    count = controller_value(run(TREE, 1, &ours));
    run(TREE, 0, &peer);
}

/* Compares the check of trees with one entry of one list changed. */
static void compare_damaged_trees(unsigned picture)
{
    uint16_t *const lists[3][2] = {
        { ours.fathers, peer.fathers }, { ours.firsts, peer.firsts },
        { ours.map, peer.map },
    };
    for (unsigned i = 0; i < n; i += 1 + n / 100) {
        ours.heights[i]++;
        peer.heights[i]++;
        same(CHECK, picture);
        ours.heights[i]--;
        peer.heights[i]--;
        for (unsigned list = 0; list < 3; list++) {
            lists[list][0][i]++;
            lists[list][1][i]++;
            same(CHECK, picture);
            lists[list][0][i]--;
            lists[list][1][i]--;
        }
    }
}

/* Compares lists of patches that are just long enough, and one entry too short. */
static void compare_short_lists(unsigned picture)
{
    room = controller_value(run(PATCHES, 1, &ours));
    same(PATCHES, picture);
    room--;
    same(PATCHES, picture);
    room = MOST_PATCHES;
}

/* Compares all least sizes, and the two beside them that are refused. */
static void compare_sizes(unsigned picture)
{
    for (sizes[0] = 0; sizes[0] <= n + 1; sizes[0]++)
        same(FILL_2, picture);
    take_sizes();
}

/* Compares handbooks, most of them refused, two of which would be 5 if they were cut to 8 or 16
 * bits, with adjacencies and places that are refused after them. */
static void compare_handbooks(unsigned picture)
{
    const uint32_t tried_handbooks[] = { 4, 5, 0, 3, 6, 8, 261, 65541, UINT32_MAX };
    const uint32_t tried_adjacencies[] = { a, 3, 5 };
    for (unsigned i = 0; i < LENGTH_OF(tried_handbooks); i++)
        for (unsigned j = 0; j < LENGTH_OF(tried_adjacencies); j++)
            for (place = n - 1; place <= n; place++) {
                handbooks[0] = tried_handbooks[i];
                a = tried_adjacencies[j];
                same(TOUCH_4, picture);
            }
    handbooks[0] = NONE_ON_LINE;
    a = tried_adjacencies[0];
}

/* Compares all calls, at all places where a call takes one; also trees with one entry changed,
 * short lists, all least sizes, and refused handbooks. */
static void compare(unsigned picture)
{
    for (unsigned call = 0; call < CALLS; call++)
        same(call, picture);
    for (unsigned k = 0; k < 256; k += 5) {
        median = (uint8_t)k;
        same(LABEL_MEDIAN, picture);
    }
    for (place = 0; place <= n; place++) {
        same(LOWERABLE, picture);
        same(QUERY, picture);
        same(TOUCH_4, picture);
        same(TOUCH_5, picture);
    }
    compare_damaged_trees(picture);
    compare_short_lists(picture);
    compare_sizes(picture);
    compare_handbooks(picture);
    median = median_pixel();
    place = largest_place();
}

static double beside_round(unsigned call)
{
    return round_of(run_measured, call, 1, BESIDE_CALLS);
}

/* All in turn in every round, so that a slow phase of the machine is none of one alone. */
static struct against_tree measure_against_tree(void)
{
    struct against_tree least = { 1e9, 1e9, 1e9, { 1e9, 1e9, 1e9, 1e9 } };
    for (unsigned i = 0; i < BESIDE_ROUNDS; i++) {
        least.tree = lesser(least.tree, beside_round(TREE));
        least.query = lesser(least.query, beside_round(QUERY));
        least.patches = lesser(least.patches, beside_round(PATCHES));
        for (unsigned size = 0; size < SIZES; size++)
            least.fill[size] = lesser(least.fill[size],
                                      beside_round(FILL_2 + size));
    }
    return least;
}

static void run_once(void)
{
    for (unsigned adjacency = 4; adjacency <= 8; adjacency += 4)
        for (unsigned p = 0; p < PICTURE_COUNT; p++) {
            take(p, LARGEST_SIDE, adjacency);
            for (unsigned call = 0; call < CALLS; call++) {
                printf("%u|%s|%s\n", adjacency, picture_names[p], call_names[call]);
                counted(run_measured, call, 1);
                counted(run_measured, call, 0);
            }
        }
}

static void run_growth(void)
{
    for (unsigned adjacency = 4; adjacency <= 8; adjacency += 4)
        for (unsigned s = 0; s < SIDES; s++) {
            take(NOISE, sides[s], adjacency);
            for (unsigned call = 0; call < CALLS; call++) {
                printf("%u|%u|%s\n", adjacency, sides[s], call_names[call]);
                counted(run_measured, call, 1);
            }
        }
}

/* Does the same with every picture at every side with both adjacencies. */
static void for_all(void (*visit)(unsigned adjacency, unsigned s, unsigned p))
{
    for (unsigned adjacency = 0; adjacency < 2; adjacency++)
        for (unsigned s = 0; s < SIDES; s++)
            for (unsigned p = 0; p < PICTURE_COUNT; p++) {
                take(p, sides[s], adjacencies[adjacency]);
                visit(adjacency, s, p);
            }
}

static void run_touches_one(unsigned adjacency, unsigned s, unsigned p)
{
    for (unsigned i = 0; i < SECOND_QUERY; i++) {
        unsigned call = calls_beside_query[i];
        printf("%u|%u|%s|%s\n", adjacencies[adjacency], sides[s], picture_names[p],
               call_names[call]);
        counted(run_measured, call, 1);
    }
}

static void compare_one(unsigned adjacency, unsigned s, unsigned p)
{
    (void)adjacency, (void)s;
    compare(p);
}

static void measure_one(unsigned adjacency, unsigned s, unsigned p)
{
    measure(run_measured, CALLS, table[adjacency][s][p]);
    measure_in_turn(run_measured, calls_beside_query, BESIDE_QUERY,
                    beside_query[adjacency][s][p]);
    if (s == SIDES - 1)
        against_tree[adjacency][p] = measure_against_tree();
}

int main(int arguments, char **argument)
{
    const char *mode = arguments > 1 ? argument[1] : "";
    if (strcmp(mode, "growth") == 0) {
        run_growth();
    } else if (strcmp(mode, "once") == 0) {
        run_once();
    } else if (strcmp(mode, "touches") == 0) {
        for_all(run_touches_one);
    } else {
        for_all(compare_one);
        printf("results: the same on %u pictures with both adjacencies\n",
               SIDES * PICTURE_COUNT);
        fflush(stdout);
        for_all(measure_one);
        print_tables();
    }
    return 0;
}
