/* The pictures that are measured. */

#include "pictures.h"
#include "saddles.h"

#include <string.h>

const unsigned picture_count = PICTURE_COUNT;

const char *const picture_names[PICTURE_COUNT] = {
    "flat", "noise", "few values", "wall", "comb", "ladder", "checkerboard",
    "snake", "stairs", "saddles for 4", "saddles for 8",
};

/* A linear congruential generator, so that every run has the same pictures. */
static uint32_t state;

static unsigned draw(unsigned bound)
{
    state = state * 1664525u + 1013904223u;
    return (state >> 8) % bound;
}

static void noise(unsigned side, uint8_t *pixels, unsigned bound)
{
    for (unsigned x = 0; x < side * side; x++)
        pixels[x] = (uint8_t)draw(bound);
}

/* A dark round hold in a cell of five pixels, moved and sized by chance. */
static void put_hold(unsigned side, uint8_t *pixels, unsigned top, unsigned left)
{
    int row = (int)(top + 1 + draw(3)), column = (int)(left + 1 + draw(3));
    int radius = 2 + (int)draw(4), depth = 60 + (int)draw(80);
    for (int r = row - 1; r <= row + 1; r++)
        for (int c = column - 1; c <= column + 1; c++) {
            int away = (r - row) * (r - row) + (c - column) * (c - column);
            if (away <= radius)
                pixels[(unsigned)r * side + (unsigned)c] =
                    (uint8_t)(170 - depth + 15 * away + (int)draw(6));
        }
}

/* A pale panel, lit from above, with a hold in every cell: 64 at 40 by 40. */
static void wall(unsigned side, uint8_t *pixels)
{
    for (unsigned x = 0; x < side * side; x++)
        pixels[x] = (uint8_t)(200 + (side - 1 - x / side) / 2);
    for (unsigned top = 0; top + 5 <= side; top += 5)
        for (unsigned left = 0; left + 5 <= side; left += 5)
            put_hold(side, pixels, top, left);
}

/* Dark teeth on a common back, each darker by one value a row. */
static void comb(unsigned side, uint8_t *pixels)
{
    for (unsigned x = 0; x < side * side; x++) {
        unsigned column = x % side, row = x / side;
        pixels[x] = (uint8_t)(row == 0 ? 200 : column % 2 ? 255 : 199 - row);
    }
}

/* Two dark rails with dark rungs between, the panel pale. */
static void ladder(unsigned side, uint8_t *pixels)
{
    for (unsigned x = 0; x < side * side; x++) {
        unsigned column = x % side, row = x / side;
        if (column == 0 || column == side - 1)
            pixels[x] = (uint8_t)(10 + row);
        else
            pixels[x] = (uint8_t)(row % 2 ? 250 : 100 + column);
    }
}

static void checkerboard(unsigned side, uint8_t *pixels)
{
    for (unsigned x = 0; x < side * side; x++)
        pixels[x] = (x % side + x / side) % 2 ? 250 : 10;
}

/* One dark path from side to side and back, rising slowly along its way. */
static void snake(unsigned side, uint8_t *pixels)
{
    unsigned at = 0;
    for (unsigned row = 0; row < side; row++)
        for (unsigned i = 0; i < side; i++) {
            unsigned turn = row / 2 % 2;
            unsigned column = turn ? side - 1 - i : i;
            int path = row % 2 == 0 || i == side - 1;
            pixels[row * side + column] =
                (uint8_t)(path ? at++ * 240 / (side * side) : 255);
        }
}

/* Each row six values above the row below, every second column one more. */
static void stairs(unsigned side, uint8_t *pixels)
{
    for (unsigned x = 0; x < side * side; x++)
        pixels[x] = (uint8_t)(6 * (side - 1 - x / side) + x % side % 2);
}

void make_picture(unsigned number, unsigned side, uint8_t *pixels)
{
    state = 2026 + number;
    switch (number) {
    case 0: memset(pixels, 128, side * side); break;
    case 1: noise(side, pixels, 256); break;
    case 2: noise(side, pixels, 4); break;
    case 3: wall(side, pixels); break;
    case 4: comb(side, pixels); break;
    case 5: ladder(side, pixels); break;
    case 6: checkerboard(side, pixels); break;
    case 7: snake(side, pixels); break;
    case 8: stairs(side, pixels); break;
    case 9: saddles_for_4(side, pixels); break;
    default: saddles_for_8(side, pixels); break;
    }
}
