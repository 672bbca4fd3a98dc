/*
 * The calls of board_controller.h with what they are given. With PEER they
 * are those of the peers in C, of the same signatures.
 */

#include "board_controller.h"
#include "call.h"
#include "geometry.h"

#ifdef PEER
#include "calls.h"
#define CALL(name) peer_##name
#else
#define CALL(name) controller_##name
#endif

#define SIDES given.width, given.height
#define LENT(memory) given.memory.at, given.memory.length
#define PICTURE given.adjacency, SIDES, LENT(pixels)
#define TREE LENT(bytes), LENT(lists[0]), LENT(lists[1]), LENT(lists[2])

static void label_section(void)
{
    answer = CALL(label_section)(PICTURE, given.k, LENT(lists[0]), LENT(work));
}

static void component_tree(void)
{
    answer = CALL(component_tree)(PICTURE, TREE, LENT(work));
}

static void check_tree(void)
{
    answer = CALL(check_tree)(PICTURE, given.count, TREE, LENT(work));
}

static void pass_between(void)
{
    answer = CALL(pass_between)(PICTURE, given.count, TREE, given.x, given.y, LENT(work));
}

static void is_lowerable(void)
{
    answer = CALL(is_lowerable)(PICTURE, given.x, LENT(work));
}

static void watershed_of(void)
{
    answer = CALL(watershed_of)(PICTURE, LENT(bytes), LENT(work));
}

static void fill_small_parts(void)
{
    answer = CALL(fill_small_parts)(PICTURE, given.s, LENT(bytes), LENT(work));
}

static void query_place(void)
{
    answer = CALL(query_place)(PICTURE, given.x, LENT(work));
}

static void touch_place(void)
{
    answer = CALL(touch_place)(given.handbook, PICTURE, given.x, LENT(work));
}

static void list_patches(void)
{
    answer = CALL(list_patches)(PICTURE, LENT(lists[0]), LENT(lists[1]), LENT(lists[2]),
                                LENT(lists[3]), LENT(lists[4]), LENT(work));
}

static void write_file(void)
{
    answer = CALL(write_file)(SIDES, given.largest, LENT(pixels), LENT(bytes));
}

static void store_rows(void)
{
    answer = CALL(store_rows)(SIDES, LENT(pixels), LENT(bytes));
}

static void restore_rows(void)
{
    answer = CALL(restore_rows)(SIDES, LENT(pixels), LENT(bytes));
}

#define ON_PICTURE .most_entries = LARGEST_N, .work_a_pixel = WORK_A_PIXEL
#define WITH_TREE .bytes_a_pixel = 1, .lists = 3
#define WITHOUT_WORK .bytes_a_pixel = 1, .without_adjacency = 1

const struct call controller_calls[CONTROLLER_CALLS] = {
    { "label_section", label_section, ON_PICTURE, .lists = 1 },
    { "component_tree", component_tree, ON_PICTURE, WITH_TREE },
    { "check_tree", check_tree, ON_PICTURE, WITH_TREE, .takes_tree = 1 },
    { "pass_between", pass_between, ON_PICTURE, WITH_TREE, .takes_tree = 1, .places = 2 },
    { "is_lowerable", is_lowerable, ON_PICTURE, .places = 1 },
    { "watershed_of", watershed_of, ON_PICTURE, .bytes_a_pixel = 1 },
    { "fill_small_parts", fill_small_parts, ON_PICTURE, .bytes_a_pixel = 1, .takes_size = 1 },
    { "query_place", query_place, ON_PICTURE, .places = 1 },
    { "touch_place", touch_place, ON_PICTURE, .places = 1, .takes_handbook = 1 },
    { "list_patches", list_patches, .work_a_pixel = WORK_A_PIXEL,
      .lists = FIGURES, .most_entries = MOST_PATCHES, .lists_patches = 1 },
    { "write_file", write_file, WITHOUT_WORK, .other_bytes = MOST_HEADER_BYTES, .saves = 1 },
    { "store_rows", store_rows, WITHOUT_WORK },
    { "restore_rows", restore_rows, WITHOUT_WORK },
};

/* The work memory is written over again: the next call must not find it zero. */
void lend_tree(void)
{
    run_uncounted(stack_top(), component_tree);
    given.count = controller_value(answer);
    fill_work();
}
