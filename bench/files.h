/* What the measurements of reading and saving files and of storing rows share. */

#ifndef FILES_H
#define FILES_H

#include "timing.h"

#include <stddef.h>
#include <stdint.h>

#define FILLING 171             /* a byte of output that no call wrote */
#define LENGTH_OF(array) (sizeof(array) / sizeof *(array))

/* examples/wall.pgm */
extern const uint8_t wall_file[];
extern const uint32_t wall_file_length;

/* The pixels of that file, 40 by 40. */
const uint8_t *wall_pixels(void);

/* Counts an answer that was the same in both: the refusal's number, or 0. */
void count_answer(unsigned number);

/* Prints how often both answered the same, and what. */
void print_answers(const char *call);

/* Prints the head of a table of times, and a row. */
void print_times_head(const char *title, const char *first);
void print_times(const char *name, size_t bytes, struct times least);

/* Prints the head of a table of times a unit, and a row for so many units. */
void print_growth_head(const char *title, const char *what, const char *unit, const char *first);
void print_growth(size_t first, size_t units, struct times least);

#endif
