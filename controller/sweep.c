/*
 * Every call on several pictures with right and wrong sides and adjacencies,
 * and with one argument changed at a time, or pixels above the largest sample;
 * the filling with many least sizes, the touch at many places.
 */

#include "board_controller.h"
#include "call.h"
#include "geometry.h"
#include "harness.h"
#include "text.h"

#define SPARE 1                 /* entries behind each list, which a change may tell */
#define SMALL_SIDE 7
#define FEW_PIXELS (SMALL_SIDE * SMALL_SIDE)    /* lent where a side is refused */
#define DARK 0x0f               /* the largest value of every third pixel */
#define FEW_PLACES 16           /* where a large picture is touched, beside the last one */

/* A linear congruential generator; a pixel is its highest byte. */
#define DRAW_FACTOR 1664525u
#define DRAW_STEP 1013904223u
#define HIGHEST_BYTE 24         /* bits below it */

#define LENGTH_OF(array) (sizeof(array) / sizeof *(array))

static const uint32_t sides[] = { 0, 1, 2, SMALL_SIDE, LARGEST_SIDE, LARGEST_SIDE + 1, 65537 };
static const uint32_t adjacencies[] = { 3, 4, 8 };

/* What is drawn beside the pixels: the height of a section, two places in hundredths of the last
 * one, the least size of a part likewise, plus one, the largest sample of a file, and the handbook
 * of a touch. The largest sample of the first is below a pixel's largest value, so that a pixel may
 * be above it. */
static const struct {
    uint8_t k;
    uint32_t x, y, size, largest, handbook;
} draws[] = {
    { 100, 33, 50, 1, 99, NEAREST_ON_LINE }, { 0, 0, 100, 0, 255, NONE_ON_LINE },
    { 255, 100, 0, 100, 1, NEAREST_ON_LINE }, { 7, 66, 66, 50, 100, NONE_ON_LINE },
};

/* The first of these have no argument changed: each is a draw. */
enum change {
    PIXELS_SHORT = LENGTH_OF(draws), PIXELS_LONG, ALL_ELSE_LONG, BYTES_SHORT, WORK_SHORT,
    X_OUTSIDE, X_LARGEST, Y_OUTSIDE, SIZE_0, SIZE_ABOVE_N, SIZE_OF_17_BITS, SIZE_LARGEST,
    HANDBOOK_3, HANDBOOK_6, HANDBOOK_OF_17_BITS, HANDBOOK_LARGEST,
    SAMPLE_0, SAMPLE_OF_9_BITS, SAMPLE_OF_17_BITS, SAMPLE_LARGEST,
    FIRST_ABOVE, MIDDLE_ABOVE, LAST_ABOVE, ALL_ABOVE,
    OTHER_COUNT, OTHER_HEIGHT, OTHER_FATHER, OTHER_FIRST, OTHER_MAP, FIRST_LIST_SHORT,
    CHANGES = FIRST_LIST_SHORT + MOST_LISTS,
};

static const char *const change_names[CHANGES] = {
    "none", "none, second draw", "none, third draw", "none, fourth draw", "pixels short",
    "pixels long", "all else long", "bytes short", "work short", "x outside", "x largest",
    "y outside", "size 0", "size n + 1", "size 65537", "size largest", "handbook 3", "handbook 6",
    "handbook 65540", "handbook largest", "sample 0", "sample 256", "sample 65537",
    "sample largest", "first pixel above", "middle pixel above", "last pixel above",
    "all pixels above", "other count", "other height", "other father", "other first place",
    "other map", "list 1 short", "list 2 short", "list 3 short", "list 4 short", "list 5 short",
};

/* Takes a least size that is refused; cut to 16 bits the third would be 1. */
static int change_size(const struct call *call, unsigned change)
{
    const uint32_t unfit[] = { 0, (uint32_t)given.pixels.length + 1, 65537, UINT32_MAX };
    given.s = unfit[change - SIZE_0];
    return call->takes_size;
}

/* Takes a handbook that is refused; cut to 16 bits the third would be 4. */
static int change_handbook(const struct call *call, unsigned change)
{
    static const uint32_t unfit[] = { 3, 6, 65540, UINT32_MAX };
    given.handbook = unfit[change - HANDBOOK_3];
    return call->takes_handbook;
}

/* Takes a largest sample that is refused; cut to 16 bits the third would be 1. */
static int change_sample(const struct call *call, unsigned change)
{
    static const uint32_t unfit[] = { 0, 256, 65537, UINT32_MAX };
    given.largest = unfit[change - SAMPLE_0];
    return call->saves;
}

/* Takes a number that is refused; answers 0 if the call has no such one. */
static int change_number(const struct call *call, unsigned change)
{
    if (change <= SIZE_LARGEST)
        return change_size(call, change);
    if (change <= HANDBOOK_LARGEST)
        return change_handbook(call, change);
    return change_sample(call, change);
}

/* Makes pixels one above the largest sample; answers 0 if there are none. */
static int raise_pixels(const struct call *call, unsigned change)
{
    size_t n = given.pixels.length;
    if (!call->saves || n == 0)
        return 0;
    size_t first = change == MIDDLE_ABOVE ? n / 2 : change == LAST_ABOVE ? n - 1 : 0;
    size_t end = change == ALL_ABOVE ? n : first + 1;
    for (size_t x = first; x < end; x++)
        given.pixels.at[x] = (uint8_t)(given.largest + 1);
    return 1;
}

/* One entry less; answers 0 if there is none. */
static int shorten(size_t *length)
{
    if (*length == 0)
        return 0;
    *length -= 1;
    return 1;
}

static void lengthen_all_else(const struct call *call)
{
    given.bytes.length++;
    given.work.length++;
    given.packed_work.length++;
    for (unsigned i = 0; i < call->lists; i++)
        given.lists[i].length++;
}

/* Changes the lent tree: its count, or an entry in the middle of a list. */
static int change_tree(unsigned change)
{
    uint32_t node = given.count / 2;
    if (change == OTHER_COUNT)
        given.count++;
    else if (change == OTHER_HEIGHT)
        given.bytes.at[node] ^= 1;
    else if (change == OTHER_MAP)
        given.lists[2].at[given.pixels.length / 2] ^= 1;
    else
        given.lists[change - OTHER_FATHER].at[node] ^= 1;
    return 1;
}

/* Shortens or lengthens; answers 0 if the call has no such length. */
static int change_length(const struct call *call, unsigned change)
{
    unsigned list = change - FIRST_LIST_SHORT;
    switch (change) {
    case PIXELS_SHORT:
        return shorten(&given.pixels.length);
    case PIXELS_LONG:
        given.pixels.length++;
        return 1;
    case ALL_ELSE_LONG:
        lengthen_all_else(call);
        return 1;
    case BYTES_SHORT:
        return shorten(&given.bytes.length);
    case WORK_SHORT:
        return shorten(&given.work.length) && shorten(&given.packed_work.length);
    default:
        return list < call->lists && shorten(&given.lists[list].length);
    }
}

/* Changes an argument; answers 0 if the call has no such one. */
static int make_change(const struct call *call, unsigned change)
{
    if (change < LENGTH_OF(draws))
        return 1;
    if (change >= SIZE_0 && change <= SAMPLE_LARGEST)
        return change_number(call, change);
    switch (change) {
    case X_OUTSIDE:
        given.x = (uint32_t)given.pixels.length;
        return call->places >= 1;
    case X_LARGEST:
        given.x = UINT32_MAX;
        return call->places >= 1;
    case Y_OUTSIDE:
        given.y = (uint32_t)given.pixels.length;
        return call->places >= 2;
    case FIRST_ABOVE:
    case MIDDLE_ABOVE:
    case LAST_ABOVE:
    case ALL_ABOVE:
        return raise_pixels(call, change);
    case OTHER_COUNT:
    case OTHER_HEIGHT:
    case OTHER_FATHER:
    case OTHER_FIRST:
    case OTHER_MAP:
        return call->takes_tree && change_tree(change);
    default:
        return change_length(call, change);
    }
}

/* The same pixels on every machine, also in the spare entry; every third is dark. */
static void draw_pixels(uint32_t n, unsigned draw)
{
    uint32_t drawn = (draw * LARGEST_SIDE + given.width) * LARGEST_SIDE + given.height;
    for (uint32_t x = 0; x < n + SPARE; x++) {
        drawn = drawn * DRAW_FACTOR + DRAW_STEP;
        given.pixels.at[x] = (uint8_t)(drawn >> HIGHEST_BYTE & (x % 3 ? UINT8_MAX : DARK));
    }
}

/* The pixels of a file are no larger than its largest sample. */
static void lend_picture(const struct call *call, uint32_t n, unsigned draw)
{
    lend(call, n, SPARE);
    draw_pixels(n, draw);
    given.largest = draws[draw].largest;
    for (uint32_t x = 0; call->saves && x < n + SPARE; x++)
        given.pixels.at[x] = (uint8_t)(given.pixels.at[x] % (given.largest + 1));
}

/* Makes each list as long as there are patches, or the output as long as the file. */
static void fit_output(const struct call *call, uint32_t n, unsigned draw)
{
    run_uncounted(stack_top(), call->with_arguments);
    lend_picture(call, n, draw);
    if (controller_refusal(answer) != 0)
        return;
    for (unsigned i = 0; i < call->lists; i++)
        given.lists[i].length = controller_value(answer);
    if (call->saves)
        given.bytes.length = controller_count(answer);
}

/* Lends the call all that it takes, nothing longer than it must be. */
static void prepare(const struct call *call, unsigned draw)
{
    uint32_t n = FEW_PIXELS;
    if (given.width <= LARGEST_SIDE && given.height <= LARGEST_SIDE)
        n = given.width * given.height;
    uint32_t last = n > 0 ? n - 1 : 0;
    lend_picture(call, n, draw);
    given.k = draws[draw].k;
    given.x = last * draws[draw].x / 100;
    given.y = last * draws[draw].y / 100;
    given.s = last * draws[draw].size / 100 + 1;
    given.handbook = draws[draw].handbook;
    if (call->takes_tree)
        lend_tree();
    if (call->lists_patches || call->saves)
        fit_output(call, n, draw);
}

static void begin_call(const char *kind, const struct call *call)
{
    begin_line(kind);
    add_text(call->name);
    add_number(given.adjacency);
    add_number(given.width);
    add_number(given.height);
}

static void end_call(void)
{
    add_hexadecimal(answer);
    add_hexadecimal(lent_sum());
    end_line();
}

static void sweep_change(const struct call *call, unsigned change)
{
    prepare(call, change < LENGTH_OF(draws) ? change : 0);
    if (!make_change(call, change))
        return;
    uint32_t before = lent_sum();
    run_uncounted(stack_top(), call->with_arguments);
    begin_call("swept", call);
    add_text(change_names[change]);
    add_hexadecimal(before);
    end_call();
}

static void sweep_sides(const struct call *call, uint32_t adjacency)
{
    given.adjacency = adjacency;
    for (unsigned j = 0; j < LENGTH_OF(sides); j++)
        for (unsigned k = 0; k < LENGTH_OF(sides); k++) {
            given.width = sides[j];
            given.height = sides[k];
            for (unsigned change = 0; change < CHANGES; change++)
                sweep_change(call, change);
        }
}

static void sweep_call(const struct call *call)
{
    if (call->without_adjacency)
        sweep_sides(call, NO_ADJACENCY);
    else
        for (unsigned i = 0; i < LENGTH_OF(adjacencies); i++)
            sweep_sides(call, adjacencies[i]);
}

static void sweep_size(const struct call *call, unsigned draw, uint32_t s)
{
    prepare(call, draw);
    given.s = s;
    run_uncounted(stack_top(), call->with_arguments);
    begin_call("sized", call);
    add_number(draw);
    add_number(s);
    end_call();
}

/* Every size while it is small, then steps that grow with it. */
static uint32_t next_size(uint32_t s)
{
    return s + 1 + (s < FEW_PIXELS ? 0 : s / 8);
}

static void sweep_sizes(const struct call *call, uint32_t side)
{
    given.width = side;
    given.height = side;
    for (given.adjacency = 4; given.adjacency <= 8; given.adjacency += 4)
        for (unsigned draw = 0; draw < LENGTH_OF(draws); draw++)
            for (uint32_t s = 1; s <= side * side; s = next_size(s))
                sweep_size(call, draw, s);
}

static void touch(const struct call *call, unsigned draw, uint32_t handbook, uint32_t place)
{
    prepare(call, draw);
    given.handbook = handbook;
    given.x = place;
    run_uncounted(stack_top(), call->with_arguments);
    begin_call("touched", call);
    add_number(draw);
    add_number(handbook);
    add_number(place);
    end_call();
}

/* Touches places in equal steps, by both handbooks. */
static void touch_places(const struct call *call, uint32_t side, uint32_t step)
{
    given.width = side;
    given.height = side;
    for (given.adjacency = 4; given.adjacency <= 8; given.adjacency += 4)
        for (unsigned draw = 0; draw < LENGTH_OF(draws); draw++)
            for (uint32_t place = 0; place < side * side; place += step) {
                touch(call, draw, NONE_ON_LINE, place);
                touch(call, draw, NEAREST_ON_LINE, place);
            }
}

void sweep_pictures(void)
{
    for (unsigned i = 0; i < CONTROLLER_CALLS; i++)
        sweep_call(&controller_calls[i]);
    sweep_call(&watershed_call);
    sweep_call(&place_call);
    sweep_sizes(&controller_calls[FILL_SMALL_PARTS], SMALL_SIDE);
    sweep_sizes(&controller_calls[FILL_SMALL_PARTS], LARGEST_SIDE);
    touch_places(&controller_calls[TOUCH_PLACE], SMALL_SIDE, 1);
    touch_places(&controller_calls[TOUCH_PLACE], LARGEST_SIDE, (LARGEST_N - 1) / FEW_PLACES);
}
