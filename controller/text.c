/* Lines of fields with bars between, each put out at once. */

#include "text.h"
#include "machine.h"

#include <string.h>

#define LINE_ROOM 200           /* more than the longest line */
#define DIGITS 21               /* of the largest number, and the end of the text */

static char line[LINE_ROOM];
static size_t length;

static void append(const char *text)
{
    size_t size = strlen(text);
    memcpy(line + length, text, size + 1);
    length += size;
}

static void add_digits(uint64_t number, unsigned base)
{
    char digits[DIGITS], *at = digits + sizeof digits;
    *--at = 0;
    do
        *--at = "0123456789abcdef"[number % base];
    while (number /= base);
    add_text(at);
}

void begin_line(const char *kind)
{
    length = 0;
    append(kind);
}

void add_text(const char *text)
{
    append("|");
    append(text);
}

void add_number(uint64_t number)
{
    add_digits(number, 10);
}

void add_hexadecimal(uint64_t number)
{
    add_digits(number, 16);
}

void end_line(void)
{
    append("\n");
    put(line);
}
