/* Bytes in memory, and the little-endian numbers in them. */
#ifndef BYTES_H
#define BYTES_H

#include "little.h"

struct bytes {
    uint8_t *at;
    size_t length;
};

void put_little(uint8_t *at, size_t width, uint64_t value);

/* Whether all of them are zero. */
int is_zero(const uint8_t *at, size_t length);

/* Memory that is never given back: the tool does one job and ends. */
void *allocate(void *old, size_t length);

/* Zeros that cost nothing until they are touched. */
struct bytes zeros(uint64_t length);

#endif
