/* Labels of the components of a section by flood fill, and the lowerable test. */

#include "calls.h"
#include "geometry.h"

#include <stdbool.h>
#include <string.h>

static void flood(struct grid g, const uint8_t *restrict pixels, unsigned k,
                  unsigned x, uint16_t c,
                  uint16_t *restrict labels, uint16_t *restrict stack)
{
    unsigned top = 1;
    labels[x] = c;
    stack[0] = (uint16_t)x;
    while (top > 0) {
        uint16_t near[8];
        unsigned count = neighbours(g, stack[--top], near);
        for (unsigned i = 0; i < count; i++) {
            unsigned y = near[i];
            if (pixels[y] <= k && labels[y] == 0) {
                labels[y] = c;
                stack[top++] = (uint16_t)y;
            }
        }
    }
}

static unsigned label(struct grid g, const uint8_t *restrict pixels, unsigned k,
                      uint16_t *restrict labels, uint16_t *restrict stack)
{
    unsigned count = 0;
    memset(labels, 0, g.n * sizeof *labels);
    for (unsigned x = 0; x < g.n; x++)
        if (pixels[x] <= k && labels[x] == 0)
            flood(g, pixels, k, x, (uint16_t)++count, labels, stack);
    return count;
}

uint64_t peer_label_section(uint32_t a, uint32_t w, uint32_t h,
    const uint8_t *pixels, size_t n, uint8_t k,
    uint16_t *out, size_t out_length, uint16_t *work, size_t work_length)
{
    unsigned fault = fault_of(a, w, h, n, out_length, work_length);
    if (fault)
        return refused(fault);
    unsigned count = label(grid_of(a, w, h), pixels, k, out, work);
    memset(work, 0, 5 * n * sizeof *work);
    return count;
}

/* The neighbours of x have labels that are not 0, and these agree. */
static bool one_label(struct grid g, unsigned x, const uint16_t *labels)
{
    uint16_t near[8];
    unsigned count = neighbours(g, x, near), common = 0;
    for (unsigned i = 0; i < count; i++) {
        unsigned l = labels[near[i]];
        if (l == 0)
            continue;
        if (common != 0 && common != l)
            return false;
        common = l;
    }
    return common != 0;
}

uint64_t peer_is_lowerable(uint32_t a, uint32_t w, uint32_t h,
    const uint8_t *pixels, size_t n, uint32_t place,
    uint16_t *work, size_t work_length)
{
    unsigned fault = fault_with_place(a, w, h, n, place, work_length);
    if (fault)
        return refused(fault);
    struct grid g = grid_of(a, w, h);
    bool yes = false;
    if (pixels[place] > 0) {
        label(g, pixels, pixels[place] - 1u, work, work + n);
        yes = one_label(g, place, work);
    }
    memset(work, 0, 5 * n * sizeof *work);
    return yes;
}
