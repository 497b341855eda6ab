#include "little.h"

uint64_t little(const uint8_t *bytes, size_t width)
{
    uint64_t value = 0;
    while (width > 0)
        value = value << 8 | bytes[--width];
    return value;
}
