/*
 * Compares our reading of P5 files with the peer's: first that answer and
 * output are the same for many files, then the times.
 *
 * With the argument `once` each timed wall is read once, by ours and then by
 * the peer, in the function `counted`, for a tool that counts instructions; a
 * line for each pair names it.
 */

#include "calls.h"
#include "files.h"
#include "geometry.h"
#include "timing.h"

#include <stdio.h>
#include <stdlib.h>
#include <string.h>

#define OUTPUT_BYTES 32
#define OUTPUT_ROOM 40          /* more than is lent */
#define MALFORMED 2
#define NUMBERS 3               /* of a header */
#define SHOWN_BYTES 40          /* of a file that is read differently */

/* The files that are only a comment without end; each has twice the bytes of the one before. */
#define GROWTHS 8
#define LEAST_BYTES 100
#define MOST_BYTES (LEAST_BYTES << (GROWTHS - 1))       /* of any file */

/* The wall without comments, and the length to which the longest comment brings it. */
#define WALL_BYTES (sizeof "P5\n40\n40\n255\n" - 1 + LARGEST_N)
#define LONG_BYTES 4096

struct file {
    size_t length;
    uint8_t bytes[MOST_BYTES];
};

/* The timed files of 40 by 40, by the bytes of the comment before each number; 0 for none. */
static const struct {
    const char *name;
    size_t comments[NUMBERS];
} walls[] = {
    { "no comment", { 0, 0, 0 } },
    { "a comment of 60 bytes before the width", { 60, 0, 0 } },
    { "a comment of 60 bytes before each number", { 60, 60, 60 } },
    { "a comment before the width, to 4,096 bytes", { LONG_BYTES - WALL_BYTES, 0, 0 } },
};

enum { WALLS = LENGTH_OF(walls), TIMED = WALLS + GROWTHS };

/* Other files that are compared: a header, and pixels of one value. */
static const struct {
    const char *header;
    unsigned pixels;
    uint8_t value;
} others[] = {
    { "P5 2 3 255\n", 6, 7 },
    { "P5 \t2\r\n  3 255 ", 6, '#' },
    { "P5\n00002 00003\n00255\n", 6, '\n' },
    { "P5\n# a\n2 3\n255\n", 6, 7 },
    { "P5\n2 #a\r3\n255\n", 6, 7 },
    { "P5\n2 3 #\n255\n", 6, 7 },
    { "P5\n#a\r\n# 4 5\n#\n 2\t##\n3\r#b\r\r#\f255\r#\n255\t", 6, 7 },
    { "P5\n40 40 # white\n255\n", LARGEST_N, 255 },
    { "P5# a\n2 3\n255\n", 6, 7 },
    { "P5\n1#\n2 3\n255\n", 6, 7 },
    { "P5\n2 3\n255# a\n", 6, 7 },
    { "P5\n2 3\n255\n# a\n", 6, 7 },
    { "P5\n2 3\n# a", 6, 7 },
    { "P6\n2 3\n255\n", 6, 7 },
    { "P5\n2 000003\n255\n", 6, 7 },
    { "P5\n41 # a\n1\n255\n", 41, 7 },
    { "P5\n2 # a\n0\n255\n", 0, 7 },
    { "P5\n2 3\n# a\n0\n", 6, 0 },
    { "P5\n2 3\n# a\n256\n", 6, 7 },
    { "P5\n2 3\n# a\n255\n", 5, 7 },
    { "P5\n2 3\n# a\n255\n", 7, 7 },
    { "P5\n2 3\n# a\n6\n", 6, 7 },
};

/* All gaps of at most so many of these bytes are compared. */
static const uint8_t in_gap[] = { '\t', '\n', '\f', '\r', ' ', '#', '1', 'x' };
enum { GAP_CHOICES = sizeof in_gap, MOST_IN_GAP = 5 };

static struct file given;               /* that is compared */
static struct file timed[TIMED];        /* walls, then comments without end */

static void put(struct file *file, const void *bytes, size_t count)
{
    memcpy(file->bytes + file->length, bytes, count);
    file->length += count;
}

static void put_text(struct file *file, const char *text)
{
    put(file, text, strlen(text));
}

/* A comment up to the byte that ends it: # and then printable bytes. */
static void put_comment(struct file *file, size_t count)
{
    for (size_t i = 0; i < count; i++)
        file->bytes[file->length++] = (uint8_t)(i == 0 ? '#' : ' ' + i % ('~' - ' ' + 1));
}

static void make_wall(struct file *file, const size_t *comments)
{
    static const char *const numbers[NUMBERS] = { "40", "40", "255" };
    put_text(file, "P5");
    for (unsigned i = 0; i < NUMBERS; i++) {
        put_text(file, "\n");
        if (comments[i] > 0) {
            put_comment(file, comments[i] - 1);
            put_text(file, "\n");
        }
        put_text(file, numbers[i]);
    }
    put_text(file, "\n");
    put(file, wall_pixels(), LARGEST_N);
}

static void make_timed(void)
{
    for (unsigned i = 0; i < WALLS; i++)
        make_wall(&timed[i], walls[i].comments);
    for (unsigned i = 0; i < GROWTHS; i++) {
        struct file *file = &timed[WALLS + i];
        put_text(file, "P5\n");
        put_comment(file, (LEAST_BYTES << i) - file->length);
    }
}

static uint64_t read_timed(unsigned number, int is_ours)
{
    static uint8_t output[OUTPUT_BYTES];
    const struct file *file = &timed[number];
    return (is_ours ? board_read : peer_read)(file->bytes, file->length, output, sizeof output);
}

static void end_by_difference(size_t room, uint32_t ours, uint32_t peer)
{
    printf("board_read differs: %zu bytes, output of %zu: %u %u; the file begins",
           given.length, room, ours, peer);
    for (size_t i = 0; i < given.length && i < SHOWN_BYTES; i++)
        printf(" %02x", given.bytes[i]);
    printf("\n");
    exit(1);
}

/* Reads the given file by both and ends the program if an answer or a byte of output differs. */
static void same(size_t room)
{
    uint8_t ours[OUTPUT_ROOM], peer[OUTPUT_ROOM];
    memset(ours, FILLING, sizeof ours);
    memset(peer, FILLING, sizeof peer);
    uint32_t first = board_read(given.bytes, given.length, ours, room);
    uint32_t second = peer_read(given.bytes, given.length, peer, room);
    if (first != second || memcmp(ours, peer, sizeof ours) != 0)
        end_by_difference(room, first, second);
    count_answer(first);
}

static void compare_outputs(void)
{
    for (size_t room = 0; room <= OUTPUT_BYTES + 1; room++)
        same(room);
}

/* Compares the whole file, all its beginnings, and all files that differ from it in one byte. */
static void compare_around(void)
{
    size_t whole = given.length;
    for (given.length = 0; given.length < whole; given.length++)
        compare_outputs();
    compare_outputs();
    for (size_t i = 0; i < whole; i++) {
        uint8_t byte = given.bytes[i];
        for (unsigned other = 0; other <= UINT8_MAX; other++) {
            given.bytes[i] = (uint8_t)other;
            same(OUTPUT_BYTES);
        }
        given.bytes[i] = byte;
    }
}

/* Compares a file with a gap of so many bytes before a number; the choice tells which bytes. */
static void compare_gap(unsigned before, unsigned count, unsigned choice)
{
    static const char *const numbers[NUMBERS] = { "2", "3", "255" };
    given.length = 0;
    put_text(&given, "P5");
    for (unsigned i = 0; i < NUMBERS; i++) {
        if (i != before)
            put_text(&given, " ");
        else
            for (unsigned k = 0; k < count; k++, choice /= GAP_CHOICES)
                put(&given, &in_gap[choice % GAP_CHOICES], 1);
        put_text(&given, numbers[i]);
    }
    put_text(&given, "\npixels");
    same(OUTPUT_BYTES);
}

static void compare_gaps(void)
{
    for (unsigned before = 0; before < NUMBERS; before++)
        for (unsigned count = 0, choices = 1; count <= MOST_IN_GAP; count++, choices *= GAP_CHOICES)
            for (unsigned choice = 0; choice < choices; choice++)
                compare_gap(before, count, choice);
}

static void compare(void)
{
    given.length = 0;
    put(&given, wall_file, wall_file_length);
    compare_around();
    for (unsigned i = 0; i < LENGTH_OF(others); i++) {
        given.length = 0;
        put_text(&given, others[i].header);
        memset(given.bytes + given.length, others[i].value, others[i].pixels);
        given.length += others[i].pixels;
        compare_around();
    }
    for (unsigned i = 0; i < TIMED; i++) {
        given = timed[i];
        if (i < WALLS)
            compare_around();
        else
            compare_outputs();
    }
    compare_gaps();
}

/* Ends the program unless the walls are accepted and the comments without end refused. */
static void check_timed(void)
{
    for (unsigned i = 0; i < TIMED; i++)
        if (read_timed(i, 1) != (i < WALLS ? 0 : MALFORMED)) {
            printf("board_read answers otherwise for the timed file %u\n", i);
            exit(1);
        }
}

static void print_tables(const struct times *least)
{
    print_times_head("Reading", "file");
    for (unsigned i = 0; i < WALLS; i++)
        print_times(walls[i].name, timed[i].length, least[i]);
    print_growth_head("Reading", "a comment that never ends, refused", "byte", "bytes");
    for (unsigned i = WALLS; i < TIMED; i++)
        print_growth(timed[i].length, timed[i].length, least[i]);
}

static void read_once(void)
{
    for (unsigned i = 0; i < WALLS; i++) {
        printf("Reading|%s|%zu\n", walls[i].name, timed[i].length);
        counted(read_timed, i, 1);
        counted(read_timed, i, 0);
    }
}

int main(int arguments, char **argument)
{
    struct times least[TIMED];
    make_timed();
    check_timed();
    if (arguments > 1 && strcmp(argument[1], "once") == 0) {
        read_once();
        return 0;
    }
    compare();
    print_answers("reading");
    measure(read_timed, TIMED, least);
    print_tables(least);
    return 0;
}
