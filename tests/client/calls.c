/*
 * Checks the functions of board_controller.h. Reads the cases that `second
 * calls` writes from standard input, one a line; TREE stands for COUNT HEIGHTS
 * FATHERS FIRSTS MAP:
 *
 *   label ADJACENCY WIDTH HEIGHT PIXELS K OUT-LENGTH WORK-LENGTH NUMBER
 *         [COUNT LABELS]
 *   lowerable ADJACENCY WIDTH HEIGHT PIXELS PLACE WORK-LENGTH NUMBER [ANSWER]
 *   tree ADJACENCY WIDTH HEIGHT PIXELS HEIGHTS-LENGTH FATHERS-LENGTH
 *         FIRSTS-LENGTH MAP-LENGTH WORK-LENGTH NUMBER [TREE]
 *   check ADJACENCY WIDTH HEIGHT PIXELS TREE WORK-LENGTH NUMBER
 *   pass ADJACENCY WIDTH HEIGHT PIXELS TREE PLACE PLACE WORK-LENGTH NUMBER
 *         [PASS]
 *   watershed ADJACENCY WIDTH HEIGHT PIXELS OUT-LENGTH WORK-LENGTH NUMBER [OUT]
 *   place ADJACENCY WIDTH HEIGHT PIXELS PLACE WORK-LENGTH NUMBER [VALUE PATCH]
 *   touch HANDBOOK ADJACENCY WIDTH HEIGHT PIXELS PLACE WORK-LENGTH NUMBER
 *         [VALUE PATCH]
 *   patches ADJACENCY WIDTH HEIGHT PIXELS SIZES-LENGTH HEIGHTS-LENGTH
 *         DEPTHS-LENGTH COLUMNS-LENGTH ROWS-LENGTH WORK-LENGTH NUMBER
 *         [COUNT SIZES HEIGHTS DEPTHS COLUMN-SUMS ROW-SUMS]
 *   fill ADJACENCY WIDTH HEIGHT PIXELS SIZE OUT-LENGTH WORK-LENGTH NUMBER [OUT]
 *   save WIDTH HEIGHT LARGEST PIXELS OUT-LENGTH NUMBER COUNT PLACE [FILE]
 *   store WIDTH HEIGHT PIXELS OUT-LENGTH NUMBER [OUT]
 *   restore WIDTH HEIGHT STORED OUT-LENGTH NUMBER [OUT]
 *
 * cases.h has the form of the fields. Lengths count entries; a 16-bit entry
 * is four hexadecimal digits, highest first. The fields in brackets stand
 * there only if the number is 0.
 */

#include "board_controller.h"
#include "cases.h"

#define MOST_ENTRIES (MEMORY_ROOM / 2)
#define MOST_PLACES 1600
#define MOST_PATCHES 800 /* enough for every picture, the header says */
#define MOST_BYTES 1613 /* the same of a saved picture */
#define MOST_NUMBER 14 /* the largest number of a refusal */

/* The lists of figures of patches, in the order of the arguments. */
enum { SIZES, HEIGHTS, DEPTHS, COLUMNS, ROWS, FIGURES };

/* A slice reaches C as pointer and length. */
#define BYTES(memory) lent(&memory), memory.length
#define ENTRIES(memory) lent_entries(&memory), memory.length / 2
#define PICTURE adjacency, width, height, BYTES(pixels)
#define TREE BYTES(heights), ENTRIES(fathers), ENTRIES(firsts), ENTRIES(map)
#define LISTS                                                                \
    ENTRIES(figures[SIZES]), ENTRIES(figures[HEIGHTS]),                      \
        ENTRIES(figures[DEPTHS]), ENTRIES(figures[COLUMNS]),                 \
        ENTRIES(figures[ROWS])

/* The arguments of a call, and the lists that are lent or expected. */
static uint32_t node_count, place, other_place, least_size, largest, handbook;
static uint8_t k;
static size_t out_length, work_length;
static size_t heights_length, fathers_length, firsts_length, map_length;
static size_t figures_lengths[FIGURES];
static struct given pixels_given, heights_given, fathers_given, firsts_given;
static struct given map_given, out_given, figures_given[FIGURES];

/* The number and the value that a call returns; of a place the value is made
 * of the pixel and the patch, of a saved picture of the first place above the
 * largest sample and the count of bytes. */
static uint64_t number, value, pixel, patch, first_above, count;

static struct memory pixels, heights, fathers, firsts, map, out, work;
static struct memory figures[FIGURES];

static const struct {
    const char *name;
    struct memory *memory;
} memories[] = {{"pixels", &pixels}, {"heights", &heights},
                {"fathers", &fathers}, {"firsts", &firsts},
                {"map", &map}, {"output", &out}, {"work", &work},
                {"sizes", &figures[SIZES]},
                {"heights of patches", &figures[HEIGHTS]},
                {"depths", &figures[DEPTHS]},
                {"column sums", &figures[COLUMNS]},
                {"row sums", &figures[ROWS]}};
#define MEMORIES (sizeof memories / sizeof *memories)

static size_t take_length(void)
{
    return (size_t)take_number(MOST_ENTRIES);
}

static void take_entries(struct given *given)
{
    take_bytes(given);
    if (given->length % 2 != 0)
        malformed = 1;
    for (size_t index = 0; index + 1 < given->length; index += 2) {
        uint16_t entry = (uint16_t)(given->bytes[index] * 256 +
                                    given->bytes[index + 1]);
        memcpy(given->bytes + index, &entry, sizeof entry);
    }
}

static void take_lent_tree(void)
{
    node_count = take_word();
    take_bytes(&heights_given);
    take_entries(&fathers_given);
    take_entries(&firsts_given);
    take_entries(&map_given);
}

/* Takes the work length and the number. The value is 0 on a refusal, after a
 * check, after a watershed and after filling. */
static void take_work_and_number(void)
{
    work_length = take_length();
    number = take_number(MOST_NUMBER);
    value = pixel = patch = 0;
}

static void take_label(void)
{
    take_picture(&pixels_given);
    k = (uint8_t)take_number(255);
    out_length = take_length();
    take_work_and_number();
    if (number != 0)
        return;
    value = take_number(MOST_PLACES);
    take_entries(&out_given);
}

static void take_lowerable(void)
{
    take_picture(&pixels_given);
    place = take_word();
    take_work_and_number();
    if (number == 0)
        value = take_number(1);
}

static void take_tree(void)
{
    take_picture(&pixels_given);
    heights_length = take_length();
    fathers_length = take_length();
    firsts_length = take_length();
    map_length = take_length();
    take_work_and_number();
    if (number != 0)
        return;
    take_lent_tree();
    value = node_count;
}

static void take_check(void)
{
    take_picture(&pixels_given);
    take_lent_tree();
    take_work_and_number();
}

static void take_pass(void)
{
    take_picture(&pixels_given);
    take_lent_tree();
    place = take_word();
    other_place = take_word();
    take_work_and_number();
    if (number == 0)
        value = take_number(255);
}

/* Takes a picture's bytes as the expected output. */
static void take_output(void)
{
    take_bytes(&out_given);
    if (out_given.length != pixels_given.length)
        malformed = 1;
}

static void take_watershed(void)
{
    take_picture(&pixels_given);
    out_length = take_length();
    take_work_and_number();
    if (number == 0)
        take_output();
}

static void take_fill(void)
{
    take_picture(&pixels_given);
    least_size = take_word();
    out_length = take_length();
    take_work_and_number();
    if (number == 0)
        take_output();
}

static void take_place(void)
{
    take_picture(&pixels_given);
    place = take_word();
    take_work_and_number();
    if (number != 0)
        return;
    pixel = take_number(255);
    patch = take_number(MOST_PATCHES);
    value = pixel * 65536 + patch;
}

static void take_touch(void)
{
    handbook = take_word();
    take_place();
}

static void take_patches(void)
{
    take_picture(&pixels_given);
    for (size_t list = 0; list < FIGURES; list++)
        figures_lengths[list] = take_length();
    take_work_and_number();
    if (number != 0)
        return;
    value = take_number(MOST_PATCHES);
    for (size_t list = 0; list < FIGURES; list++) {
        take_entries(&figures_given[list]);
        if (figures_given[list].length != 2 * value)
            malformed = 1;
    }
}

static void take_save(void)
{
    width = take_word();
    height = take_word();
    largest = take_word();
    take_bytes(&pixels_given);
    out_length = take_length();
    number = take_number(9);
    count = take_number(MOST_BYTES);
    first_above = take_number(MOST_PLACES - 1);
    value = first_above * 65536 + count;
    if (number != 0)
        return;
    take_bytes(&out_given);
    if (out_given.length != count)
        malformed = 1;
}

/* Takes the fields of storing and of the way back; the stored form that is
 * restored is taken as pixels. */
static void take_rows(void)
{
    width = take_word();
    height = take_word();
    take_bytes(&pixels_given);
    out_length = take_length();
    number = take_number(9);
    value = 0;
    if (number == 0)
        take_output();
}

static uint16_t *lent_entries(struct memory *memory)
{
    return (uint16_t *)(void *)lent(memory);
}

/* Prepares what every call is lent. */
static void prepare_picture(unsigned turn)
{
    /* What an earlier case left in memory is no fault of this one. */
    for (size_t index = 0; index < MEMORIES; index++)
        remember(memories[index].memory);
    prepare_input(&pixels, &pixels_given, 1, 3, turn);
}

/* Prepares what every call with work is lent. */
static void prepare_picture_and_work(unsigned turn)
{
    prepare_picture(turn);
    prepare(&work, 2 * work_length, 2, 7, turn);
}

static void prepare_lent_tree(unsigned turn)
{
    prepare_input(&heights, &heights_given, 1, 9, turn);
    prepare_input(&fathers, &fathers_given, 2, 11, turn);
    prepare_input(&firsts, &firsts_given, 2, 13, turn);
    prepare_input(&map, &map_given, 2, 15, turn);
}

static void prepare_tree_output(unsigned turn)
{
    prepare(&heights, heights_length, 1, 9, turn);
    prepare(&fathers, 2 * fathers_length, 2, 11, turn);
    prepare(&firsts, 2 * firsts_length, 2, 13, turn);
    prepare(&map, 2 * map_length, 2, 15, turn);
}

static void prepare_figures(unsigned turn)
{
    for (unsigned list = 0; list < FIGURES; list++)
        prepare(&figures[list], 2 * figures_lengths[list], 2, 17 + 2 * list,
                turn);
}

/* Says that after success the memory begins with the bytes of a field. */
static void expect_given(struct memory *memory, const struct given *given)
{
    if (number == 0)
        expect(memory, given->bytes, given->length);
}

/* Whether the result is the expected one, as a number and through the
 * functions of the header. */
static int is_right(uint64_t result)
{
    return result == (number << 32) + value &&
           controller_refusal(result) == number &&
           controller_value(result) == value;
}

/* Checks the result and all memory. */
static int check_without_work(uint64_t result)
{
    if (!is_right(result)) {
        printf("returned %lu and %lu, expected %lu and %lu\n",
               (unsigned long)controller_refusal(result),
               (unsigned long)controller_value(result),
               (unsigned long)number, (unsigned long)value);
        return 0;
    }
    for (size_t index = 0; index < MEMORIES; index++)
        if (!as_expected(memories[index].memory)) {
            printf("memory differs: %s\n", memories[index].name);
            return 0;
        }
    return 1;
}

/* The same for a call with work; it is zero over 5 n entries after success. */
static int check(uint64_t result)
{
    static const uint8_t zeros[MEMORY_ROOM];
    if (number == 0)
        expect(&work, zeros, 10 * pixels_given.length);
    return check_without_work(result);
}

/* Checks the two parts of the value for a place. */
static int check_place(uint64_t result)
{
    if (controller_pixel(result) == pixel &&
        controller_patch(result) == patch)
        return 1;
    printf("pixel %lu and patch %lu, expected %lu and %lu\n",
           (unsigned long)controller_pixel(result),
           (unsigned long)controller_patch(result), (unsigned long)pixel,
           (unsigned long)patch);
    return 0;
}

/* Checks the two parts of the value for a saved picture. */
static int check_save(uint64_t result)
{
    if (controller_count(result) == count &&
        controller_first_above(result) == first_above)
        return 1;
    printf("count %lu and first place %lu, expected %lu and %lu\n",
           (unsigned long)controller_count(result),
           (unsigned long)controller_first_above(result),
           (unsigned long)count, (unsigned long)first_above);
    return 0;
}

static int run_label(unsigned turn)
{
    prepare_picture_and_work(turn);
    prepare(&out, 2 * out_length, 2, 5, turn);
    uint64_t result = controller_label_section(PICTURE, k, ENTRIES(out),
                                               ENTRIES(work));
    expect_given(&out, &out_given);
    return check(result);
}

static int run_lowerable(unsigned turn)
{
    prepare_picture_and_work(turn);
    return check(controller_is_lowerable(PICTURE, place, ENTRIES(work)));
}

static int run_tree(unsigned turn)
{
    prepare_picture_and_work(turn);
    prepare_tree_output(turn);
    uint64_t result = controller_component_tree(PICTURE, TREE, ENTRIES(work));
    expect_given(&heights, &heights_given);
    expect_given(&fathers, &fathers_given);
    expect_given(&firsts, &firsts_given);
    expect_given(&map, &map_given);
    return check(result);
}

static int run_check(unsigned turn)
{
    prepare_picture_and_work(turn);
    prepare_lent_tree(turn);
    return check(controller_check_tree(PICTURE, node_count, TREE,
                                       ENTRIES(work)));
}

static int run_pass(unsigned turn)
{
    prepare_picture_and_work(turn);
    prepare_lent_tree(turn);
    return check(controller_pass_between(PICTURE, node_count, TREE, place,
                                         other_place, ENTRIES(work)));
}

static int run_watershed(unsigned turn)
{
    prepare_picture_and_work(turn);
    prepare(&out, out_length, 1, 5, turn);
    uint64_t result = controller_watershed_of(PICTURE, BYTES(out),
                                              ENTRIES(work));
    expect_given(&out, &out_given);
    return check(result);
}

static int run_fill(unsigned turn)
{
    prepare_picture_and_work(turn);
    prepare(&out, out_length, 1, 5, turn);
    uint64_t result = controller_fill_small_parts(PICTURE, least_size,
                                                  BYTES(out), ENTRIES(work));
    expect_given(&out, &out_given);
    return check(result);
}

static int run_place(unsigned turn)
{
    prepare_picture_and_work(turn);
    uint64_t result = controller_query_place(PICTURE, place, ENTRIES(work));
    return check(result) && check_place(result);
}

static int run_touch(unsigned turn)
{
    prepare_picture_and_work(turn);
    uint64_t result = controller_touch_place(handbook, PICTURE, place,
                                             ENTRIES(work));
    return check(result) && check_place(result);
}

static int run_patches(unsigned turn)
{
    prepare_picture_and_work(turn);
    prepare_figures(turn);
    uint64_t result = controller_list_patches(PICTURE, LISTS, ENTRIES(work));
    for (size_t list = 0; list < FIGURES; list++)
        expect_given(&figures[list], &figures_given[list]);
    return check(result);
}

static int run_save(unsigned turn)
{
    prepare_picture(turn);
    prepare(&out, out_length, 1, 5, turn);
    uint64_t result = controller_write_file(width, height, largest,
                                            BYTES(pixels), BYTES(out));
    expect_given(&out, &out_given);
    return check_without_work(result) && check_save(result);
}

/* Storing or the way back: they take the same arguments. */
typedef uint64_t rows_call(uint32_t width, uint32_t height,
                           const uint8_t *bytes, size_t bytes_len,
                           uint8_t *out, size_t out_len);

static int run_rows(rows_call *call, unsigned turn)
{
    prepare_picture(turn);
    prepare(&out, out_length, 1, 5, turn);
    uint64_t result = call(width, height, BYTES(pixels), BYTES(out));
    expect_given(&out, &out_given);
    return check_without_work(result);
}

static int run_store(unsigned turn)
{
    return run_rows(controller_store_rows, turn);
}

static int run_restore(unsigned turn)
{
    return run_rows(controller_restore_rows, turn);
}

int main(void)
{
    static const struct kind kinds[] = {
        {"label", take_label, run_label},
        {"lowerable", take_lowerable, run_lowerable},
        {"tree", take_tree, run_tree},
        {"check", take_check, run_check},
        {"pass", take_pass, run_pass},
        {"watershed", take_watershed, run_watershed},
        {"place", take_place, run_place},
        {"touch", take_touch, run_touch},
        {"patches", take_patches, run_patches},
        {"fill", take_fill, run_fill},
        {"save", take_save, run_save},
        {"store", take_rows, run_store},
        {"restore", take_rows, run_restore},
    };
    return run_cases(kinds, sizeof kinds / sizeof *kinds);
}
