/* Pictures in whose watershed many pixels fall many times. */

#ifndef SADDLES_H
#define SADDLES_H

#include <stdint.h>

void saddles_for_4(unsigned side, uint8_t *pixels);
void saddles_for_8(unsigned side, uint8_t *pixels);

#endif
