/* Numbers as people write them. */
#ifndef NUMBERS_H
#define NUMBERS_H

#include <stddef.h>
#include <stdint.h>

/* Whether the text is a number up to `most`: decimal digits, or 0x or 0X and hexadecimal ones, nothing else. */
int read_number(const char *text, size_t length, uint64_t most, uint64_t *value);

#endif
