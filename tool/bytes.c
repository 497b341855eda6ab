#define _DEFAULT_SOURCE /* MAP_ANONYMOUS */
#include "bytes.h"

#include "fail.h"

#include <inttypes.h>
#include <stdlib.h>
#include <string.h>
#include <sys/mman.h>

void put_little(uint8_t *at, size_t width, uint64_t value)
{
    for (size_t i = 0; i < width; i++)
        at[i] = (uint8_t)(value >> 8 * i);
}

int is_zero(const uint8_t *at, size_t length)
{
    return !length || (!*at && !memcmp(at, at + 1, length - 1));
}

void *allocate(void *old, size_t length)
{
    void *at = realloc(old, length ? length : 1);
    if (!at)
        fail("out of memory: can't get %zu bytes", length);
    return at;
}

struct bytes zeros(uint64_t length)
{
    struct bytes none = {NULL, 0};
    if (!length)
        return none;
    void *at = mmap(NULL, length, PROT_READ | PROT_WRITE, MAP_PRIVATE | MAP_ANONYMOUS | MAP_NORESERVE, -1, 0);
    if (at == MAP_FAILED)
        fail("out of memory: can't get %" PRIu64 " bytes", length);
    struct bytes made = {at, length};
    return made;
}
