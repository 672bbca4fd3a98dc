/* Lends memory to a call. */

#include "call.h"
#include "geometry.h"

#include <string.h>

#define UNWRITTEN 0xc3          /* what lent memory holds before a call */
#define FNV_START 2166136261u   /* FNV-1a, 32 bits */
#define FNV_FACTOR 16777619u

/* Enough for the two calls on the tablet: the picture, an output, the work memory. */
#define SPARE_BYTES 64          /* for the entries behind them */
#define TABLET_BYTES (2 * LARGEST_N + WORK_A_PIXEL * LARGEST_N * BYTES_AN_ENTRY + SPARE_BYTES)

struct arguments given;
uint64_t answer;

static _Alignas(STACK_ALIGNMENT) uint8_t tablet_memory[TABLET_BYTES];
static uint8_t *low, *high;     /* the ends of what is lent */
static uint8_t *top;            /* of the stack */

static struct bytes take_bytes(uint32_t length, uint32_t spare)
{
    low -= length + spare;
    return (struct bytes){ low, length };
}

static struct entries take_entries(uint32_t length, uint32_t spare)
{
    low -= (length + spare) * BYTES_AN_ENTRY;
    return (struct entries){ (uint16_t *)(void *)low, length };
}

static uint32_t lesser(uint32_t a, uint32_t b)
{
    return a < b ? a : b;
}

/* 16-bit memory first: it lies at even addresses, bytes below it need not. */
void lend(const struct call *call, uint32_t n, uint32_t spare)
{
    high = call->on_tablet ? tablet_memory + TABLET_BYTES
                           : controller_memory + CONTROLLER_BYTES;
    low = high;
    given.work = take_entries(call->work_a_pixel * n, spare);
    given.packed_work = (struct bytes){ low, given.work.length * BYTES_AN_ENTRY };
    for (uint32_t i = 0; i < call->lists; i++)
        given.lists[i] = take_entries(lesser(n, call->most_entries), spare);
    given.bytes = take_bytes(call->bytes_a_pixel * n + call->other_bytes, spare);
    given.pixels = take_bytes(n, spare);
    memset(low, UNWRITTEN, lent_bytes());
    top = call->on_tablet ? controller_memory + CONTROLLER_BYTES : low;
}

void fill_work(void)
{
    memset(given.work.at, UNWRITTEN, given.work.length * BYTES_AN_ENTRY);
}

uint8_t *stack_top(void)
{
    return top - (uintptr_t)top % STACK_ALIGNMENT;
}

uint32_t lent_bytes(void)
{
    return (uint32_t)(high - low);
}

uint32_t lent_sum(void)
{
    uint32_t sum = FNV_START;
    for (const uint8_t *at = low; at < high; at++)
        sum = (sum ^ *at) * FNV_FACTOR;
    return sum;
}
