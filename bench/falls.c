/* How many pixels are tested and fall in the watershed of each picture at 40 by 40. Needs watershed.c compiled with COUNT_FALLS. */

#include "calls.h"
#include "geometry.h"
#include "pictures.h"

#include <stdio.h>

static uint8_t pixels[LARGEST_N], out[LARGEST_N];
static uint16_t work[5 * LARGEST_N];

int main(void)
{
    printf("\nPixels tested and falls in the watershed, 40 by 40; the bound on falls is %d\n\n",
           255 * LARGEST_N);
    printf("| picture | tests, 4 | falls, 4 | tests, 8 | falls, 8 |\n|---|---|---|---|---|\n");
    for (unsigned p = 0; p < PICTURE_COUNT; p++) {
        printf("| %s |", picture_names[p]);
        make_picture(p, LARGEST_SIDE, pixels);
        for (unsigned a = 4; a <= 8; a += 4) {
            peer_tests = peer_falls = 0;
            peer_watershed_of(a, LARGEST_SIDE, LARGEST_SIDE, pixels, LARGEST_N,
                              out, LARGEST_N, work, 5 * LARGEST_N);
            printf(" %lu | %lu |", peer_tests, peer_falls);
        }
        printf("\n");
    }
    return 0;
}
