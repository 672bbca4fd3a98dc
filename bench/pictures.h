/* The pictures that are measured: square, made by number. */

#ifndef PICTURES_H
#define PICTURES_H

#include <stdint.h>

#define PICTURE_COUNT 11
#define NOISE 1

extern const char *const picture_names[PICTURE_COUNT];

/* The same number for those who cannot read this file. */
extern const unsigned picture_count;

/* Fills side * side pixels. */
void make_picture(unsigned number, unsigned side, uint8_t *pixels);

#endif
