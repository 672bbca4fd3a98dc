/* Files that board_read accepts and refuses. */

#include "call.h"
#include "harness.h"
#include "text.h"

#include <string.h>

static const struct file {
    const char *name;
    const char *header;
    uint32_t pixels;
    uint8_t value;              /* of every pixel */
    uint32_t missing;           /* bytes of the output */
} files[] = {
    { "of 40 by 40", "P5\n40 40\n255\n", 1600, 255, 0 },
    { "of 1 by 1", "P5 1 1 1\n", 1, 1, 0 },
    { "with spaces", "P5 \t2\r\n  3 255 ", 6, 7, 0 },
    { "with a comment before the width", "P5\n# a\n 2 3\n255\n", 6, 7, 0 },
    { "with a comment before the height", "P5\n2 # a\r 3\n255\n", 6, 7, 0 },
    { "with a comment before the largest sample", "P5\n2 3\n#\n255\n", 6, 7, 0 },
    { "with numbers right after comments", "P5\n# a\r2\t# b\n3 #c\r#\n255\r", 6, 7, 0 },
    { "empty", "", 0, 0, 0 },
    { "of other letters", "P6\n2 3\n255\n", 6, 7, 0 },
    { "that ends in a number", "P5\n2", 0, 0, 0 },
    { "with a letter for a number", "P5\n2 x\n255\n", 6, 7, 0 },
    { "with a number of 6 digits", "P5\n2 000003\n255\n", 6, 7, 0 },
    { "with # after the letters", "P5# a\n2 3\n255\n", 6, 7, 0 },
    { "with # in a number", "P5\n2 3\n2#\n55\n", 6, 7, 0 },
    { "with # after the largest sample", "P5\n2 3\n255# a\n", 6, 7, 0 },
    { "with a comment that never ends", "P5\n2 3\n# a", 6, 7, 0 },
    { "of 41 by 1", "P5\n41 1\n255\n", 41, 7, 0 },
    { "of 2 by 0", "P5\n2 0\n255\n", 0, 7, 0 },
    { "of samples up to 0", "P5\n2 3\n0\n", 6, 0, 0 },
    { "of samples up to 256", "P5\n2 3\n256\n", 6, 7, 0 },
    { "with a pixel less", "P5\n2 3\n255\n", 5, 7, 0 },
    { "with a pixel more", "P5\n2 3\n255\n", 7, 7, 0 },
    { "with pixels too large", "P5\n2 3\n6\n", 6, 7, 0 },
    { "with too short an output", "P5\n2 3\n255\n", 6, 7, 1 },
};

static void read_file(const struct file *file)
{
    uint32_t header = (uint32_t)strlen(file->header);
    lend(&read_call, header + file->pixels, 0);
    memcpy(given.pixels.at, file->header, header);
    memset(given.pixels.at + header, file->value, file->pixels);
    given.bytes.length -= file->missing;
    uint32_t before = lent_sum();
    run_uncounted(stack_top(), read_call.with_arguments);
    begin_line("swept");
    add_text(read_call.name);
    add_text("");
    add_text("");
    add_text("");
    add_text(file->name);
    add_hexadecimal(before);
    add_hexadecimal(answer);
    add_hexadecimal(lent_sum());
    end_line();
}

void sweep_files(void)
{
    for (unsigned i = 0; i < sizeof files / sizeof *files; i++)
        read_file(&files[i]);
}
