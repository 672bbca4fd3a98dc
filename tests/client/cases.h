/*
 * Test cases, one a line, and the memory that is lent to the calls.
 *
 * Bytes are in hexadecimal, no bytes are a hyphen. Each case runs twice. The
 * second time every byte of output and work memory has all its bits inverted
 * first, so that a byte left unwritten is seen.
 */

#ifndef CASES_H
#define CASES_H

#include <stddef.h>
#include <stdint.h>
#include <stdio.h>
#include <stdlib.h>
#include <string.h>

#define LINE_ROOM 65536
#define MEMORY_ROOM 32768
#define GUARD 64
#define MAXIMUM_FIELDS 18

/* Memory that is lent to a call, with guard bytes before and behind. */
struct memory {
    _Alignas(16) uint8_t bytes[GUARD + 2 + MEMORY_ROOM + GUARD];
    uint8_t before[GUARD + 2 + MEMORY_ROOM + GUARD];
    size_t start;
    size_t length;
};

/* Bytes of a field, in the order in which memory has them. */
struct given {
    uint8_t bytes[MEMORY_ROOM];
    size_t length;
};

/* Takes the memory as it is for what it holds before a call. */
static void remember(struct memory *memory)
{
    memcpy(memory->before, memory->bytes, sizeof memory->bytes);
}

/* Fills memory with a pattern; the length is in bytes. An odd turn moves the
 * start by one entry of this size. */
static void prepare(struct memory *memory, size_t length, size_t entry_size,
                    unsigned seed, unsigned turn)
{
    memory->start = GUARD + turn % 2 * entry_size;
    memory->length = length;
    for (size_t index = 0; index < sizeof memory->bytes; index++) {
        uint8_t byte = (uint8_t)(index * 37 + index / 256 * 11 + seed * 101);
        memory->bytes[index] = turn % 2 == 0 ? byte : (uint8_t)~byte;
    }
    remember(memory);
}

/* Memory that holds the bytes of a field. */
static void prepare_input(struct memory *memory, const struct given *given,
                          size_t entry_size, unsigned seed, unsigned turn)
{
    prepare(memory, given->length, entry_size, seed, turn);
    memcpy(memory->bytes + memory->start, given->bytes, given->length);
    remember(memory);
}

static uint8_t *lent(struct memory *memory)
{
    return memory->bytes + memory->start;
}

/* Says that after the call the memory begins with these bytes. */
static void expect(struct memory *memory, const uint8_t *bytes, size_t count)
{
    memcpy(memory->before + memory->start, bytes, count);
}

/* Whether the memory is as before but for what was expected. The guard bytes
 * are included. */
static int as_expected(const struct memory *memory)
{
    return memcmp(memory->bytes, memory->before, sizeof memory->bytes) == 0;
}

static int hexadecimal_digit(char digit)
{
    if (digit >= '0' && digit <= '9')
        return digit - '0';
    if (digit >= 'a' && digit <= 'f')
        return digit - 'a' + 10;
    return -1;
}

/* Reads bytes in hexadecimal. Answers 1, or 0 if they are malformed. */
static int parse_bytes(const char *field, uint8_t *bytes, size_t *length)
{
    *length = 0;
    if (strcmp(field, "-") == 0)
        return 1;
    size_t digits = strlen(field);
    if (digits % 2 != 0 || digits / 2 > MEMORY_ROOM)
        return 0;
    for (size_t index = 0; index < digits / 2; index++) {
        int high = hexadecimal_digit(field[2 * index]);
        int low = hexadecimal_digit(field[2 * index + 1]);
        if (high < 0 || low < 0)
            return 0;
        bytes[index] = (uint8_t)(16 * high + low);
    }
    *length = digits / 2;
    return 1;
}

static int parse_number(const char *field, uint64_t most, uint64_t *number)
{
    char *end;
    if (field[0] < '0' || field[0] > '9')
        return 0;
    *number = strtoull(field, &end, 10);
    return *end == '\0' && *number <= most;
}

/* Parts the line at its spaces. Answers the number of fields, or 0 if they
 * are too many. */
static int split(char *line, char **fields)
{
    int count = 0;
    for (char *field = strtok(line, " \n"); field != NULL;
         field = strtok(NULL, " \n")) {
        if (count == MAXIMUM_FIELDS)
            return 0;
        fields[count] = field;
        count++;
    }
    return count;
}

/* The fields that are not taken yet; malformed if one did not fit. */
static char **next_field;
static int fields_left;
static int malformed;

static const char *take_field(void)
{
    if (fields_left == 0) {
        malformed = 1;
        return "0";
    }
    fields_left--;
    return *next_field++;
}

static uint64_t take_number(uint64_t most)
{
    uint64_t number = 0;
    if (!parse_number(take_field(), most, &number))
        malformed = 1;
    return number;
}

static uint32_t take_word(void)
{
    return (uint32_t)take_number(UINT32_MAX);
}

static void take_bytes(struct given *given)
{
    if (!parse_bytes(take_field(), given->bytes, &given->length))
        malformed = 1;
}

/* The arguments that every call on a picture has, but for its pixels. */
static uint32_t adjacency, width, height;

static void take_picture(struct given *pixels)
{
    adjacency = take_word();
    width = take_word();
    height = take_word();
    take_bytes(pixels);
}

/* A kind of case: how its fields are taken, and one run of its call, which
 * answers whether all is as expected. */
struct kind {
    const char *name;
    void (*take)(void);
    int (*run)(unsigned turn);
};

/* Says that a case is malformed and answers 0. */
static int malformed_case(void)
{
    printf("case malformed\n");
    return 0;
}

/* Takes the fields of a case and runs it twice. */
static int run_case(const struct kind *kinds, size_t kind_count)
{
    const char *name = take_field();
    size_t index = 0;
    while (index < kind_count && strcmp(name, kinds[index].name) != 0)
        index++;
    if (index == kind_count)
        return malformed_case();
    kinds[index].take();
    if (malformed || fields_left != 0)
        return malformed_case();
    return kinds[index].run(0) && kinds[index].run(1);
}

/* Runs the cases of standard input and prints the wrong ones. Answers the
 * status of the program: 0 if there are cases and none is wrong. */
static int run_cases(const struct kind *kinds, size_t kind_count)
{
    static char line[LINE_ROOM];
    static char copy[LINE_ROOM];
    unsigned long cases = 0;
    unsigned long wrong_cases = 0;
    while (fgets(line, sizeof line, stdin) != NULL) {
        char *fields[MAXIMUM_FIELDS];
        strcpy(copy, line);
        next_field = fields;
        fields_left = split(copy, fields);
        malformed = 0;
        cases++;
        if (!run_case(kinds, kind_count)) {
            wrong_cases++;
            printf("case %lu: %s", cases, line);
        }
    }
    printf("%lu cases, %lu wrong\n", cases, wrong_cases);
    return cases > 0 && wrong_cases == 0 ? 0 : 1;
}

#endif
