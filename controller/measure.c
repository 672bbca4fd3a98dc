/* Runs every call at 40 by 40, counted and on a painted stack. */

#include "call.h"
#include "geometry.h"
#include "harness.h"
#include "pictures.h"
#include "text.h"

#include <string.h>

#define PAINT 0xa5              /* of the stack before a call */
#define VALUES 256              /* of a pixel */
#define LARGEST_VALUE 255
#define WALL_FILE PICTURE_COUNT /* the file's number, behind the made pictures */
#define COMMENT_FROM 3          /* behind P5 and the first byte of white space */
#define COMMENTED_BYTES 4096    /* of the file with a comment */

extern const uint8_t wall_file[];
extern const uint32_t wall_file_length;

static void fill_pixels(unsigned picture)
{
    if (picture == WALL_FILE)
        memcpy(given.pixels.at, wall_file + wall_file_length - LARGEST_N, LARGEST_N);
    else
        make_picture(picture, LARGEST_SIDE, given.pixels.at);
}

static uint8_t median(void)
{
    uint32_t of_value[VALUES] = { 0 }, seen = 0;
    uint8_t k = 0;
    for (uint32_t x = 0; x < LARGEST_N; x++)
        of_value[given.pixels.at[x]]++;
    while ((seen += of_value[k]) <= LARGEST_N / 2)
        k++;
    return k;
}

/* The first place of the largest value. */
static uint32_t first_largest(void)
{
    uint32_t place = 0;
    for (uint32_t x = 0; x < LARGEST_N; x++)
        if (given.pixels.at[x] > given.pixels.at[place])
            place = x;
    return place;
}

/* Restoring takes the same bytes as all others: any are the stored form of a picture. */
static void prepare(const struct call *call, unsigned picture, uint32_t adjacency)
{
    lend(call, LARGEST_N, 0);
    fill_pixels(picture);
    given.adjacency = adjacency;
    given.width = LARGEST_SIDE;
    given.height = LARGEST_SIDE;
    given.x = call->places == 1 ? first_largest() : 0;
    given.y = LARGEST_N - 1;
    given.largest = LARGEST_SAMPLE;
    if (call->takes_tree)
        lend_tree();
}

/* Runs the call; answers how many bytes of its stack it changed. */
static uint32_t run_painted(const struct call *call)
{
    uint8_t *top = stack_top(), *at = controller_memory;
    memset(at, PAINT, (size_t)(top - at));
    run_counted(top, call->with_arguments);
    while (at < top && *at == PAINT)
        at++;
    return (uint32_t)(top - at);
}

static void begin(const char *kind, const char *title, unsigned picture)
{
    begin_line(kind);
    add_text(title);
    add_number(given.adjacency);
    add_text(picture == WALL_FILE ? "examples/wall.pgm" : picture_names[picture]);
}

static void measure(const struct call *call, const char *title, unsigned picture)
{
    uint32_t stack = run_painted(call);
    begin("measured", title, picture);
    add_hexadecimal(answer);
    add_hexadecimal(lent_sum());
    end_line();
    begin("used", title, picture);
    add_number(lent_bytes());
    add_number(stack);
    end_line();
}

static void measure_call(const struct call *call, unsigned picture, uint32_t adjacency)
{
    prepare(call, picture, adjacency);
    measure(call, call->name, picture);
}

/* The section at the median, and that of all pixels. */
static void measure_sections(unsigned picture, uint32_t adjacency)
{
    const struct call *call = &controller_calls[LABEL_SECTION];
    prepare(call, picture, adjacency);
    given.k = median();
    measure(call, "label_section, median", picture);
    prepare(call, picture, adjacency);
    given.k = LARGEST_VALUE;
    measure(call, "label_section, 255", picture);
}

/* Small parts, and the largest least size. */
static void measure_fillings(unsigned picture, uint32_t adjacency)
{
    static const struct {
        const char *title;
        uint32_t s;
    } sizes[] = {
        { "fill_small_parts, 2", 2 }, { "fill_small_parts, 12", 12 },
        { "fill_small_parts, n / 2", LARGEST_N / 2 }, { "fill_small_parts, n", LARGEST_N },
    };
    const struct call *call = &controller_calls[FILL_SMALL_PARTS];
    for (unsigned i = 0; i < sizeof sizes / sizeof *sizes; i++) {
        prepare(call, picture, adjacency);
        given.s = sizes[i].s;
        measure(call, sizes[i].title, picture);
    }
}

/* At the first largest pixel: its node is the root, so that no touch by handbook 5 costs more. */
static void measure_touches(unsigned picture, uint32_t adjacency)
{
    static const struct {
        const char *title;
        uint32_t handbook;
    } handbooks[] = {
        { "touch_place, 4", NONE_ON_LINE }, { "touch_place, 5", NEAREST_ON_LINE },
    };
    const struct call *call = &controller_calls[TOUCH_PLACE];
    for (unsigned i = 0; i < sizeof handbooks / sizeof *handbooks; i++) {
        prepare(call, picture, adjacency);
        given.handbook = handbooks[i].handbook;
        measure(call, handbooks[i].title, picture);
    }
}

/* Measures the call of a number under every adjacency that it takes. */
static void measure_adjacencies(unsigned number, unsigned picture)
{
    const struct call *call = &controller_calls[number];
    if (call->without_adjacency) {
        measure_call(call, picture, NO_ADJACENCY);
        return;
    }
    for (uint32_t adjacency = 4; adjacency <= 8; adjacency += 4)
        if (number == LABEL_SECTION)
            measure_sections(picture, adjacency);
        else if (number == FILL_SMALL_PARTS)
            measure_fillings(picture, adjacency);
        else if (number == TOUCH_PLACE)
            measure_touches(picture, adjacency);
        else
            measure_call(call, picture, adjacency);
}

void measure_controller_calls(void)
{
    for (unsigned i = 0; i < CONTROLLER_CALLS; i++)
        for (unsigned picture = 0; picture <= WALL_FILE; picture++)
            measure_adjacencies(i, picture);
}

/* Lends the wall's file with a comment of so many bytes, or with none. */
static void lend_file(uint32_t comment)
{
    lend(&read_call, wall_file_length + comment, 0);
    uint8_t *at = given.pixels.at, *rest = at + COMMENT_FROM + comment;
    memcpy(at, wall_file, COMMENT_FROM);
    memset(at + COMMENT_FROM, '#', comment);
    if (comment > 0)
        rest[-1] = '\n';
    memcpy(rest, wall_file + COMMENT_FROM, wall_file_length - COMMENT_FROM);
}

static void measure_read(const char *title, uint32_t comment)
{
    lend_file(comment);
    given.adjacency = NO_ADJACENCY;
    measure(&read_call, title, WALL_FILE);
}

void measure_board_calls(void)
{
    measure_read("board_read", 0);
    measure_read("board_read, 4096 bytes with a comment", COMMENTED_BYTES - wall_file_length);
    for (uint32_t adjacency = 4; adjacency <= 8; adjacency += 4) {
        measure_call(&watershed_call, WALL_FILE, adjacency);
        measure_call(&place_call, WALL_FILE, adjacency);
    }
}
