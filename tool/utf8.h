/* The characters of text that may be no text: names of files are any bytes. */
#ifndef UTF8_H
#define UTF8_H

#include <stddef.h>
#include <stdint.h>

/* How many bytes the character takes that the text begins with, and which it is; 0 where that is no UTF-8. */
size_t character_at(const char *text, size_t length, uint32_t *character);

/* Whether a terminal would act on the character rather than show it. */
int is_control(uint32_t character);

#endif
