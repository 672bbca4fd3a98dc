/*
 * A call as the harness sees it: its arguments, what it is lent, its answer.
 *
 * Lent memory lies at the high end of the controller's memory and the call's
 * stack below it. The two calls of the tablet do not fit: what they are lent
 * lies elsewhere, and they have all of the controller's memory as a stack.
 */

#ifndef CALL_H
#define CALL_H

#include "geometry.h"
#include "machine.h"

#include <stddef.h>
#include <stdint.h>

#define MOST_LISTS FIGURES      /* of 16-bit entries, lent to one call */
#define WORK_A_PIXEL 5          /* entries of work memory */
#define BYTES_AN_ENTRY 2

struct bytes {
    uint8_t *at;
    size_t length;
};

struct entries {
    uint16_t *at;
    size_t length;
};

/* What the next call is given; each call takes its part. */
struct arguments {
    uint32_t adjacency, width, height;
    struct bytes pixels;        /* or the file, or the stored form */
    uint8_t k;
    uint32_t count;             /* nodes of the lent tree */
    uint32_t x, y;              /* places */
    uint32_t handbook;
    uint32_t s;                 /* the least size of a part */
    uint32_t largest;           /* sample of the file that is saved */
    struct bytes bytes;         /* the tree's heights, or an output of bytes */
    struct entries lists[MOST_LISTS];
    struct entries work;
    struct bytes packed_work;   /* the same memory, for the calls of board.h */
};

struct call {
    const char *name;
    action *with_arguments;
    uint32_t bytes_a_pixel;     /* of the list or output of bytes */
    uint32_t other_bytes;       /* the same, whatever the picture */
    uint32_t lists;             /* how many of 16-bit entries */
    uint32_t most_entries;      /* of such a list: n, or this if n is more */
    uint32_t work_a_pixel;      /* entries */
    uint32_t places;            /* how many it takes */
    int takes_tree;
    int takes_size;
    int takes_handbook;
    int without_adjacency;
    int saves;                  /* takes a largest sample and answers a count of bytes */
    int lists_patches;          /* the lists have an entry a patch, not a pixel */
    int on_tablet;
};

extern struct arguments given;

/* The refusal's number above 32 bits of value, also for the calls of board.h. */
extern uint64_t answer;

#define NO_ADJACENCY 0          /* of the calls that take none */

#define CONTROLLER_CALLS 13
#define LABEL_SECTION 0         /* the number of the call that takes k */
#define FILL_SMALL_PARTS 6      /* the number of the call that takes s */
#define TOUCH_PLACE 8           /* the number of the call that takes a handbook */
extern const struct call controller_calls[CONTROLLER_CALLS];
extern const struct call read_call, watershed_call, place_call;

/* Lends a call what it takes for n pixels, each list with as many entries
 * behind it as spare says. All of it holds one pattern afterwards. */
void lend(const struct call *call, uint32_t n, uint32_t spare);

/* The high end of the stack of the call. */
uint8_t *stack_top(void);

/* The bytes lent, and a sum over them. */
uint32_t lent_bytes(void);
uint32_t lent_sum(void);

/* Fills the work memory with that pattern again. */
void fill_work(void);

/* Fills the lent tree and its count with those of the picture; the count is 0
 * if the picture is refused. */
void lend_tree(void);

#endif
