/*
 * Checks the three C functions of board.h. Reads the cases that
 * `second cases` writes from standard input, one a line:
 *
 *   read FILE OUT-LENGTH NUMBER [WIDTH HEIGHT LARGEST OFFSET]
 *   watershed ADJACENCY WIDTH HEIGHT PIXELS OUT-LENGTH WORK-LENGTH NUMBER [OUT]
 *   place ADJACENCY WIDTH HEIGHT PIXELS PLACE OUT-LENGTH WORK-LENGTH NUMBER
 *         [VALUE PATCH]
 *
 * cases.h has the form of the fields. The fields in brackets stand there only
 * if the number is 0.
 */

#include "board.h"
#include "cases.h"

/* A slice reaches C as pointer and length. */
#define SLICE(memory) lent(&memory), memory.length

/* The arguments of a call, its number, and what its output begins with. */
static uint32_t place;
static struct given input_given;
static size_t out_length, work_length;
static uint64_t number;
static struct given expected;

static struct memory input;
static struct memory out;
static struct memory work;

/* Prints what differs and answers 0. */
static int wrong(const char *what, uint32_t result, uint64_t wanted)
{
    printf("%s; returned %lu, expected %lu\n", what, (unsigned long)result,
           (unsigned long)wanted);
    return 0;
}

/* Takes a number and expects it as eight bytes, lowest first, behind what is
 * expected already. */
static void take_expected(uint64_t most)
{
    uint64_t value = take_number(most);
    for (int index = 0; index < 8; index++)
        expected.bytes[expected.length++] = (uint8_t)(value >> (8 * index));
}

static size_t take_length(void)
{
    return (size_t)take_number(MEMORY_ROOM);
}

/* Takes the number; nothing is expected of the output yet. */
static void take_refusal(void)
{
    number = take_number(12);
    expected.length = 0;
}

static void take_read(void)
{
    take_bytes(&input_given);
    out_length = take_length();
    work_length = 0;
    take_refusal();
    if (number != 0)
        return;
    for (int index = 0; index < 4; index++)
        take_expected(UINT32_MAX);
}

static void take_watershed(void)
{
    take_picture(&input_given);
    out_length = take_length();
    work_length = take_length();
    take_refusal();
    if (number != 0)
        return;
    take_bytes(&expected);
    if (expected.length != input_given.length)
        malformed = 1;
}

static void take_place(void)
{
    take_picture(&input_given);
    place = take_word();
    out_length = take_length();
    work_length = take_length();
    take_refusal();
    if (number != 0)
        return;
    take_expected(255);
    take_expected(1600);
}

static void prepare_memory(unsigned turn)
{
    prepare_input(&input, &input_given, 1, 3, turn);
    prepare(&out, out_length, 1, 5, turn);
    prepare(&work, work_length, 1, 7, turn);
}

/* Checks memory after a call: after success the output begins with what is
 * expected, and `zeroed` bytes of work are zero. */
static int check(uint32_t result, size_t zeroed)
{
    static const uint8_t zeros[MEMORY_ROOM];
    if (result != number)
        return wrong("wrong number", result, number);
    if (number == 0) {
        expect(&out, expected.bytes, expected.length);
        expect(&work, zeros, zeroed);
    }
    if (!as_expected(&input))
        return wrong("input memory changed", result, number);
    if (!as_expected(&out))
        return wrong("output memory differs", result, number);
    if (!as_expected(&work))
        return wrong("work memory differs", result, number);
    return 1;
}

static int run_read(unsigned turn)
{
    prepare_memory(turn);
    return check(board_read(SLICE(input), SLICE(out)), 0);
}

static int run_watershed(unsigned turn)
{
    prepare_memory(turn);
    uint32_t result = board_watershed(adjacency, width, height, SLICE(input),
                                      SLICE(out), SLICE(work));
    return check(result, 10 * input_given.length);
}

static int run_place(unsigned turn)
{
    prepare_memory(turn);
    uint32_t result = board_place(adjacency, width, height, SLICE(input),
                                  place, SLICE(out), SLICE(work));
    return check(result, 10 * input_given.length);
}

int main(void)
{
    static const struct kind kinds[] = {
        {"read", take_read, run_read},
        {"watershed", take_watershed, run_watershed},
        {"place", take_place, run_place},
    };
    return run_cases(kinds, sizeof kinds / sizeof *kinds);
}
