/* Little-endian numbers, as records, maps and headers have them. */
#ifndef LITTLE_H
#define LITTLE_H

#include <stddef.h>
#include <stdint.h>

/* The number that at most eight bytes spell. */
uint64_t little(const uint8_t *bytes, size_t width);

#endif
