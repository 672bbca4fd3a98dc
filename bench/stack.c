/*
 * The largest stack of each of our calls at 40 by 40: each call runs on a
 * stack of its own that was filled with a pattern, on every picture, with
 * both adjacencies, several places, least sizes, handbooks, files or largest
 * samples, and two patterns. What an empty function takes in its place is
 * taken off, but for the return address; arguments that are passed in memory
 * are the caller's and not counted. For x86-64.
 */

#include "calls.h"
#include "geometry.h"
#include "pictures.h"

#include <stdio.h>
#include <string.h>

#define STACK_ROOM 65536
#define RETURN_ADDRESS 8
#define MEMORY_OF_CONTROLLER 32768
#define READ_BYTES 32           /* of the output */
#define FILE_ROOM (LARGEST_N + 64)      /* more than the longest file */

typedef void any_function(void);

/* The files that are read, by their headers: accepted without and with comments, refused with them. */
static const struct {
    const char *header;
    unsigned pixels;
} files[] = {
    { LONGEST_HEADER, LARGEST_N },
    { "P5\n# a\n# b\r 40\n# c\n40\t# d\r#\n255\n", LARGEST_N },
    { "P5\n# a\n40\n# b\n4#0\n255\n", LARGEST_N },
    { "P5\n40 40 # a\n# without end", 0 },
};

enum { FILES = sizeof files / sizeof *files, PLACE_STEP = (LARGEST_N - 1) / (FILES - 1) };

/* The largest samples with which pictures are saved: the first is accepted, the next two are below a
 * pixel of most pictures, the last is outside its range. */
static const uint32_t largest_samples[FILES] = { LARGEST_SAMPLE, 99, 9, 0 };

static _Alignas(64) uint8_t stack[STACK_ROOM];
static const uint32_t side = LARGEST_SIDE;
static const size_t n = LARGEST_N;
static uint8_t file[FILE_ROOM];
static size_t file_length;
static uint8_t pixels[LARGEST_N], heights[LARGEST_N], bytes[LARGEST_N];
static uint8_t packed_work[10 * LARGEST_N];
static uint16_t fathers[LARGEST_N], firsts[LARGEST_N], map[LARGEST_N];
static uint16_t labels[LARGEST_N], work[5 * LARGEST_N];
static uint16_t figures[FIGURES][MOST_PATCHES];
static uint32_t a, count, place;
static uint64_t answer;

/* The function that is called: one of ours, or the empty one. */
static any_function *function;

static void empty(void)
{
}

static void label_section(void)
{
    answer = ((label_section_call *)function)(a, side, side, pixels, n, 255,
                                              labels, n, work, 5 * n);
}

static void is_lowerable(void)
{
    answer = ((is_lowerable_call *)function)(a, side, side, pixels, n, place,
                                             work, 5 * n);
}

static void component_tree(void)
{
    answer = ((component_tree_call *)function)(a, side, side, pixels, n,
        heights, n, fathers, n, firsts, n, map, n, work, 5 * n);
}

static void check_tree(void)
{
    answer = ((check_tree_call *)function)(a, side, side, pixels, n, count,
        heights, n, fathers, n, firsts, n, map, n, work, 5 * n);
}

static void pass_between(void)
{
    answer = ((pass_between_call *)function)(a, side, side, pixels, n, count,
        heights, n, fathers, n, firsts, n, map, n, 0, place, work, 5 * n);
}

static void watershed_of(void)
{
    answer = ((watershed_of_call *)function)(a, side, side, pixels, n,
                                             bytes, n, work, 5 * n);
}

/* The least size changes with the place. */
static void fill_small_parts(void)
{
    answer = ((fill_small_parts_call *)function)(a, side, side, pixels, n, place + 1,
                                                 bytes, n, work, 5 * n);
}

static void query_place(void)
{
    answer = ((query_place_call *)function)(a, side, side, pixels, n, place,
                                            work, 5 * n);
}

/* The handbook changes with the place. */
static void touch_place(void)
{
    uint32_t handbook = place / PLACE_STEP % 2 ? NEAREST_ON_LINE : NONE_ON_LINE;
    answer = ((touch_place_call *)function)(handbook, a, side, side, pixels, n, place,
                                            work, 5 * n);
}

static void list_patches(void)
{
    answer = ((list_patches_call *)function)(a, side, side, pixels, n,
        figures[0], MOST_PATCHES, figures[1], MOST_PATCHES, figures[2], MOST_PATCHES,
        figures[3], MOST_PATCHES, figures[4], MOST_PATCHES, work, 5 * n);
}

/* The largest sample changes with the place. */
static void write_file(void)
{
    answer = ((write_file_call *)function)(side, side, largest_samples[place / PLACE_STEP],
                                           pixels, n, file, MOST_HEADER_BYTES + n);
}

/* Storing rows and the way back have one signature. */
static void convert_rows(void)
{
    answer = ((store_rows_call *)function)(side, side, pixels, n, bytes, n);
}

static void read_for_c(void)
{
    answer = ((board_read_call *)function)(file, file_length, bytes, READ_BYTES);
}

static void watershed_for_c(void)
{
    answer = ((uint32_t (*)(uint32_t, uint32_t, uint32_t, const uint8_t *, size_t,
                            uint8_t *, size_t, uint8_t *, size_t))function)(
        a, side, side, pixels, n, bytes, n, packed_work, 10 * n);
}

static void place_for_c(void)
{
    answer = ((uint32_t (*)(uint32_t, uint32_t, uint32_t, const uint8_t *, size_t,
                            uint32_t, uint8_t *, size_t, uint8_t *, size_t))function)(
        a, side, side, pixels, n, place, bytes, 16, packed_work, 10 * n);
}

static const struct {
    const char *name;
    unsigned lent;              /* bytes, the picture or the file too */
    any_function *ours, *with_arguments;
} calls[] = {
    { "label_section", 20800, (any_function *)controller_label_section, label_section },
    { "is_lowerable", 17600, (any_function *)controller_is_lowerable, is_lowerable },
    { "component_tree", 28800, (any_function *)controller_component_tree, component_tree },
    { "check_tree", 28800, (any_function *)controller_check_tree, check_tree },
    { "pass_between", 28800, (any_function *)controller_pass_between, pass_between },
    { "watershed_of", 19200, (any_function *)controller_watershed_of, watershed_of },
    { "fill_small_parts", 19200, (any_function *)controller_fill_small_parts, fill_small_parts },
    { "query_place", 17600, (any_function *)controller_query_place, query_place },
    { "touch_place", 17600, (any_function *)controller_touch_place, touch_place },
    { "list_patches", 17600 + sizeof figures, (any_function *)controller_list_patches, list_patches },
    { "write_file", LARGEST_N + MOST_HEADER_BYTES + LARGEST_N, (any_function *)controller_write_file, write_file },
    { "store_rows", 2 * LARGEST_N, (any_function *)controller_store_rows, convert_rows },
    { "restore_rows", 2 * LARGEST_N, (any_function *)controller_restore_rows, convert_rows },
    { "board_read", MOST_HEADER_BYTES + LARGEST_N + READ_BYTES, (any_function *)board_read, read_for_c },
    { "board_watershed", 19200, (any_function *)board_watershed, watershed_for_c },
    { "board_place", 17616, (any_function *)board_place, place_for_c },
};

/* Runs a function on the stack that ends at top. */
static void run_on(uint8_t *top, any_function *f)
{
    __asm__ volatile("movq %%rsp, %%rbx\n\t"
                     "movq %0, %%rsp\n\t"
                     "call *%1\n\t"
                     "movq %%rbx, %%rsp"
                     : "+r"(top), "+r"(f) :
                     : "rbx", "rax", "rcx", "rdx", "rsi", "rdi", "r8", "r9",
                       "r10", "r11", "memory", "cc",
                       "xmm0", "xmm1", "xmm2", "xmm3", "xmm4", "xmm5", "xmm6",
                       "xmm7", "xmm8", "xmm9", "xmm10", "xmm11", "xmm12",
                       "xmm13", "xmm14", "xmm15");
}

/* How many bytes of the stack a call changes. */
static unsigned used(any_function *with_arguments, uint8_t pattern)
{
    unsigned i = 0;
    memset(stack, pattern, sizeof stack);
    run_on(stack + sizeof stack, with_arguments);
    while (i < sizeof stack && stack[i] == pattern)
        i++;
    return (unsigned)sizeof stack - i;
}

static unsigned larger(unsigned x, unsigned y)
{
    return x > y ? x : y;
}

static void make_file(unsigned number)
{
    file_length = strlen(files[number].header);
    memcpy(file, files[number].header, file_length);
    memcpy(file + file_length, pixels, files[number].pixels);
    file_length += files[number].pixels;
}

/* The file that is read changes with the place. */
static unsigned largest_used(any_function *f, any_function *with_arguments)
{
    unsigned most = 0;
    for (unsigned p = 0; p < PICTURE_COUNT; p++)
        for (a = 4; a <= 8; a += 4) {
            make_picture(p, side, pixels);
            count = controller_value(controller_component_tree(a, side, side, pixels, n,
                heights, n, fathers, n, firsts, n, map, n, work, 5 * n));
            function = f;
            for (place = 0; place < n; place += PLACE_STEP) {
                make_file(place / PLACE_STEP);
                most = larger(most, used(with_arguments, 0xa5));
                most = larger(most, used(with_arguments, 0x5a));
            }
        }
    return most;
}

int main(void)
{
    printf("\nStack of our calls in bytes, 40 by 40\n\n");
    printf("| call | lent | stack | together | within %d |\n|---|---|---|---|---|\n",
           MEMORY_OF_CONTROLLER);
    for (unsigned i = 0; i < sizeof calls / sizeof *calls; i++) {
        any_function *with_arguments = calls[i].with_arguments;
        unsigned own = largest_used(calls[i].ours, with_arguments)
            - largest_used(empty, with_arguments) + RETURN_ADDRESS;
        unsigned whole = calls[i].lent + own;
        printf("| `%s` | %u | %u | %u | %s |\n", calls[i].name,
               calls[i].lent, own, whole,
               whole <= MEMORY_OF_CONTROLLER ? "yes" : "no");
    }
    return 0;
}
