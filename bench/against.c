/*
 * Times the list of patches of two builds of the library for firmware, this
 * tree's and that of an earlier commit, in turn in one process, and beside it
 * the component tree. Where the tree's code is the same in both, its ratio
 * shows how far two times of the same code differ.
 *
 * Before that it compares what both answer on each picture. The depths of
 * patches may differ, and the lists where they do are counted; anything else
 * that differs ends the program, and so does a refusal.
 */

#include "board_controller.h"
#include "geometry.h"
#include "pictures.h"
#include "timing.h"

#include <dlfcn.h>
#include <stdio.h>
#include <stdlib.h>
#include <string.h>

#define FILLING 171             /* a byte of memory that no call wrote */
#define TURNS 5                 /* as the first of each round, and as the second */

enum { SIZE, HEIGHT, DEPTH, COLUMNS, ROWS };    /* the figures of a patch */
enum { TREE, PATCHES, CALLS };

/* Of one library, with the types of the header. */
struct library {
    __typeof__(controller_component_tree) *component_tree;
    __typeof__(controller_list_patches) *list_patches;
};

/* All memory that a call may be lent. */
struct memory {
    uint8_t heights[LARGEST_N];
    uint16_t fathers[LARGEST_N], firsts[LARGEST_N], map[LARGEST_N];
    uint16_t figures[FIGURES][MOST_PATCHES], work[5 * LARGEST_N];
};

static struct library after, before;
static struct memory lent;      /* to both, so that its place makes no difference */
static uint8_t pixels[LARGEST_N];
static uint32_t a;              /* the adjacency */
static int before_first;        /* in each round */
static unsigned other_depths;   /* in how many lists */
static double most;             /* of the ratios of the list of patches */

static void *loaded(void *found)
{
    if (!found) {
        fprintf(stderr, "against: %s\n", dlerror());
        exit(1);
    }
    return found;
}

static struct library library_of(const char *path)
{
    struct library l;
    void *opened = loaded(dlopen(path, RTLD_NOW | RTLD_LOCAL));
    *(void **)&l.component_tree = loaded(dlsym(opened, "controller_component_tree"));
    *(void **)&l.list_patches = loaded(dlsym(opened, "controller_list_patches"));
    return l;
}

static uint64_t run(unsigned call, int is_after)
{
    const struct library *l = is_after ? &after : &before;
    uint16_t (*f)[MOST_PATCHES] = lent.figures;
    if (call == TREE)
        return l->component_tree(a, LARGEST_SIDE, LARGEST_SIDE, pixels, LARGEST_N,
            lent.heights, LARGEST_N, lent.fathers, LARGEST_N, lent.firsts, LARGEST_N,
            lent.map, LARGEST_N, lent.work, 5 * LARGEST_N);
    return l->list_patches(a, LARGEST_SIDE, LARGEST_SIDE, pixels, LARGEST_N,
        f[SIZE], MOST_PATCHES, f[HEIGHT], MOST_PATCHES, f[DEPTH], MOST_PATCHES,
        f[COLUMNS], MOST_PATCHES, f[ROWS], MOST_PATCHES, lent.work, 5 * LARGEST_N);
}

static void take(unsigned picture, uint32_t adjacency)
{
    a = adjacency;
    make_picture(picture, LARGEST_SIDE, pixels);
}

/* Runs a call of both; ends the program if one is refused or anything but the depths differs. */
static void compare(unsigned call, unsigned picture)
{
    static struct memory kept;
    memset(&lent, FILLING, sizeof lent);
    uint64_t first = run(call, 1);
    kept = lent;
    memset(&lent, FILLING, sizeof lent);
    uint64_t second = run(call, 0);
    size_t depths = call == PATCHES ? controller_value(first) * sizeof lent.figures[DEPTH][0] : 0;
    if (memcmp(kept.figures[DEPTH], lent.figures[DEPTH], depths) != 0)
        other_depths++;
    memcpy(kept.figures[DEPTH], lent.figures[DEPTH], depths);
    if (first == second && controller_refusal(first) == 0 && memcmp(&kept, &lent, sizeof lent) == 0)
        return;
    printf("%s differs or is refused: %s, adjacency %u: %llx %llx\n",
           call == TREE ? "component_tree" : "list_patches", picture_names[picture], a,
           (unsigned long long)first, (unsigned long long)second);
    exit(1);
}

static void compare_one(unsigned picture, uint32_t adjacency)
{
    take(picture, adjacency);
    compare(TREE, picture);
    compare(PATCHES, picture);
}

static uint64_t run_in_turn(unsigned call, int is_first)
{
    return run(call, is_first != before_first);
}

/* The least times over turns in both orders: the same code takes up to an eighth more or less as the first of a round
 * than as the second. */
static void measure_in_turns(struct times *least)
{
    struct times t[CALLS];
    for (unsigned call = 0; call < CALLS; call++)
        least[call] = (struct times){ 1e9, 1e9 };
    for (unsigned i = 0; i < 2 * TURNS; i++) {
        before_first = i % 2;
        measure(run_in_turn, CALLS, t);
        for (unsigned call = 0; call < CALLS; call++) {
            double first = t[call].ours, second = t[call].peer;
            least[call].ours = lesser(least[call].ours, before_first ? second : first);
            least[call].peer = lesser(least[call].peer, before_first ? first : second);
        }
    }
}

static void measure_one(unsigned picture, uint32_t adjacency)
{
    struct times t[CALLS];
    take(picture, adjacency);
    measure_in_turns(t);
    double ratio = t[PATCHES].ours / t[PATCHES].peer;
    printf("| %s | %u | %.2f | %.2f | %.2f |\n", picture_names[picture], adjacency,
           ratio, t[TREE].ours / t[TREE].peer,
           (t[PATCHES].ours - t[TREE].ours) / (t[PATCHES].peer - t[TREE].peer));
    most = ratio > most ? ratio : most;
}

/* Does the same with every picture with both adjacencies. */
static void for_all(void (*visit)(unsigned picture, uint32_t adjacency))
{
    for (unsigned p = 0; p < PICTURE_COUNT; p++)
        for (uint32_t adjacency = 4; adjacency <= 8; adjacency += 4)
            visit(p, adjacency);
}

int main(int arguments, char **argument)
{
    if (arguments != 3) {
        fprintf(stderr, "Usage: against AFTER BEFORE, two shared libraries\n");
        return 2;
    }
    after = library_of(argument[1]);
    before = library_of(argument[2]);
    for_all(compare_one);
    printf("results: the same, but for depths in %u of %u lists of patches\n",
           other_depths, 2 * PICTURE_COUNT);
    printf("\nTime after over time before, 40 by 40\n");
    printf("\n| picture | adjacency | list_patches | component_tree | list_patches less component_tree |\n");
    printf("|---|---|---|---|---|\n");
    for_all(measure_one);
    printf("\nThe largest of list_patches is %.2f.\n", most);
    return 0;
}
