/*
 * The calls of board.h with what they are given. They answer the refusal's
 * number alone.
 */

#include "board.h"
#include "call.h"

#define LENT(memory) given.memory.at, given.memory.length
#define PICTURE given.adjacency, given.width, given.height, LENT(pixels)
#define READ_BYTES 32           /* four numbers of eight bytes */
#define PLACE_BYTES 16          /* two */

static void read_file(void)
{
    answer = refused(board_read(LENT(pixels), LENT(bytes)));
}

static void watershed(void)
{
    answer = refused(board_watershed(PICTURE, LENT(bytes), LENT(packed_work)));
}

static void place(void)
{
    answer = refused(board_place(PICTURE, given.x, LENT(bytes), LENT(packed_work)));
}

const struct call read_call = {
    "board_read", read_file, .other_bytes = READ_BYTES,
};

const struct call watershed_call = {
    "board_watershed", watershed, .bytes_a_pixel = 1, .work_a_pixel = WORK_A_PIXEL, .on_tablet = 1,
};

const struct call place_call = {
    "board_place", place, .other_bytes = PLACE_BYTES, .work_a_pixel = WORK_A_PIXEL, .places = 1,
    .on_tablet = 1,
};
