/* Lines of fields with bars between. */

#ifndef TEXT_H
#define TEXT_H

#include <stdint.h>

void begin_line(const char *kind);
void add_text(const char *text);
void add_number(uint64_t number);
void add_hexadecimal(uint64_t number);
void end_line(void);

#endif
