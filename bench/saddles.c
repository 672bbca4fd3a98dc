/*
 * Nested saddles: pictures in whose watershed many pixels fall many times.
 *
 * Minima of value 0 stand in rows, and between each two of them stands a
 * saddle, lower than the one before. A saddle touches two minima and never
 * falls. Each saddle but the first is kept from the floor by a gate, a pixel
 * above all of the floor. The floor lies just above the first saddle. Once a
 * gate has fallen to its saddle the whole floor falls to it, pixel by pixel;
 * then the next gate is the least that is lowerable. So almost every pixel of
 * the floor falls once for each saddle. Walls of 255 stand between the floor
 * and the minima at the ends of the rows, which only walls touch.
 */

#include "geometry.h"
#include "saddles.h"

#include <string.h>

enum { WALL = 255 };

/*
 * Adjacency 4. The minima stand on three double diagonals, which end on one
 * line across. All saddles of that line have the value 1, and their gates are
 * the last.
 */
enum { GATE_4 = 254, FLOOR_4 = 253 };

/* Around the picture lies a margin of one, so that every place has four places beside it. */
#define ROOM (LARGEST_SIDE + 2)
#define BESIDE(test, r, c) (test(r - 1, c) + test(r, c + 1) + test(r + 1, c) + test(r, c - 1))

static int side_4;
static uint8_t *pixels_4;
static uint8_t minima[ROOM][ROOM];

static int inside(int row, int column)
{
    return row >= 0 && column >= 0 && row < side_4 && column < side_4;
}

static int last_line(int row, int column)
{
    return inside(row, column) && row + column == 2 * side_4 - 18
        && column - row >= -12 && column - row <= 14;
}

static int minimum_here(int row, int column)
{
    int d = column - row;
    if (last_line(row, column))
        return 1;
    if (row + column > 2 * side_4 - 18)
        return 0;
    if (d == -10 || d == -8)
        return row >= 12;
    return row >= 2 && (d == 0 || d == 2 || d == 10 || d == 12);
}

static int minimum(int row, int column)
{
    return minima[row + 1][column + 1];
}

static int touched(int row, int column)
{
    return inside(row, column) && !minimum(row, column)
        && BESIDE(minimum, row, column) > 0;
}

static int touched_once(int row, int column)
{
    return touched(row, column) && BESIDE(minimum, row, column) == 1;
}

/* A minimum at the end of a row: a place beside it touches no other minimum. */
static int end(int row, int column)
{
    return inside(row, column) && minimum(row, column)
        && BESIDE(touched_once, row, column) > 0;
}

static int saddle(int row, int column)
{
    return touched(row, column) && BESIDE(end, row, column) == 0
        && BESIDE(minimum, row, column) == 2
        && BESIDE(last_line, row, column) < 2;
}

static int last_saddle(int row, int column)
{
    return touched(row, column) && BESIDE(end, row, column) == 0
        && !saddle(row, column) && BESIDE(last_line, row, column) > 0;
}

static int floor_here(int row, int column)
{
    return inside(row, column) && !minimum(row, column)
        && !touched(row, column);
}

/* The first place of the floor beside a saddle: its gate. */
static int gate_of(int row, int column)
{
    static const int rows[4] = { -1, 0, 0, 1 }, columns[4] = { 0, -1, 1, 0 };
    for (int i = 0; i < 4; i++)
        if (floor_here(row + rows[i], column + columns[i]))
            return (row + rows[i]) * side_4 + column + columns[i];
    return LARGEST_N;
}

static void put_minima_and_floor(void)
{
    for (int row = 0; row < side_4; row++)
        for (int column = 0; column < side_4; column++) {
            uint8_t *at = &pixels_4[row * side_4 + column];
            if (minimum(row, column))
                *at = 0;
            else if (last_saddle(row, column))
                *at = 1;
            else if (touched(row, column))
                *at = WALL;
            else if (BESIDE(last_saddle, row, column))
                *at = WALL;
            else
                *at = BESIDE(saddle, row, column) ? GATE_4 : FLOOR_4;
        }
}

/* Gives the saddles their values, in the order of their gates, and opens the first gate. */
static void put_saddles(void)
{
    static int saddles[LARGEST_N], gates[LARGEST_N];
    int count = 0;
    for (int x = 0; x < side_4 * side_4; x++) {
        if (!saddle(x / side_4, x % side_4))
            continue;
        int gate = gate_of(x / side_4, x % side_4), i = count++;
        for (; i > 0 && gates[i - 1] > gate; i--) {
            gates[i] = gates[i - 1];
            saddles[i] = saddles[i - 1];
        }
        gates[i] = gate;
        saddles[i] = x;
    }
    for (int i = 0; i < count; i++)
        pixels_4[saddles[i]] = (uint8_t)(i < FLOOR_4 - 3 ? FLOOR_4 - 1 - i : 2);
    if (count > 0 && gates[0] < LARGEST_N)
        pixels_4[gates[0]] = FLOOR_4;
}

void saddles_for_4(unsigned side, uint8_t *pixels)
{
    side_4 = (int)side;
    pixels_4 = pixels;
    memset(minima, 0, sizeof minima);
    for (int row = 0; row < side_4; row++)
        for (int column = 0; column < side_4; column++)
            minima[row + 1][column + 1] = (uint8_t)minimum_here(row, column);
    put_minima_and_floor();
    put_saddles();
}

/*
 * Adjacency 8. The minima of the row stand along the edge of the picture, the
 * saddles between them, and one place further in minima that only walls touch.
 */
enum { FLOOR_8 = 210, GATE_8 = 214 };

/* The place at a distance along one of the four edges and a depth from it. */
static unsigned at_edge(unsigned side, unsigned edge, unsigned along, unsigned depth)
{
    unsigned last = side - 1;
    switch (edge) {
    case 0: return depth * side + along;
    case 1: return along * side + last - depth;
    case 2: return (last - depth) * side + last - along;
    default: return (last - along) * side + depth;
    }
}

/* How far a place is from the nearest edge. */
static unsigned depth_of(unsigned side, unsigned x)
{
    unsigned last = side - 1, column = x % side, row = x / side, depth = row;
    depth = column < depth ? column : depth;
    depth = last - column < depth ? last - column : depth;
    return last - row < depth ? last - row : depth;
}

/* Puts the minima, saddles and gates of one edge; answers the number of the next saddle. */
static unsigned put_edge(unsigned side, uint8_t *pixels, unsigned edge, unsigned number)
{
    pixels[at_edge(side, edge, 2, 2)] = 0;
    for (unsigned along = 5; along + 2 < side; along += 4)
        pixels[at_edge(side, edge, along, 2)] = 0;
    for (unsigned along = 7; along + 3 < side; along += 4, number++) {
        uint8_t value = (uint8_t)(FLOOR_8 - 1 - number);
        pixels[at_edge(side, edge, along, 0)] = value;
        pixels[at_edge(side, edge, along, 1)] = value;
        pixels[at_edge(side, edge, along, 2)] =
            (uint8_t)(number ? GATE_8 + number : FLOOR_8);
        pixels[at_edge(side, edge, along, 3)] = FLOOR_8;
    }
    return number;
}

void saddles_for_8(unsigned side, uint8_t *pixels)
{
    unsigned number = 0;
    for (unsigned x = 0; x < side * side; x++) {
        unsigned depth = depth_of(side, x);
        pixels[x] = depth == 0 ? 0 : depth <= 3 ? WALL : FLOOR_8;
    }
    for (unsigned edge = 0; edge < 4 && side > 12; edge++)
        number = put_edge(side, pixels, edge, number);
    pixels[0] = WALL;
}
