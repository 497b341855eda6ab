#include "near.h"

#include <stddef.h>
#include <string.h>

/* How many letters, of at most so many, are the same at the beginning. */
static size_t same_first(const char *a, const char *b, size_t most)
{
    size_t same = 0;
    while (same < most && a[same] == b[same])
        same++;
    return same;
}

/* How many are the same at the end, which is pointed to. */
static size_t same_last(const char *a, const char *b, size_t most)
{
    size_t same = 0;
    while (same < most && *(a - same - 1) == *(b - same - 1))
        same++;
    return same;
}

int is_near(const char *typed, const char *name)
{
    typed += strspn(typed, "-");
    name += strspn(name, "-");
    size_t length = strlen(typed), other = strlen(name);
    size_t shorter = length < other ? length : other, longer = length < other ? other : length;
    size_t first = same_first(typed, name, shorter);
    size_t wrong = longer - first - same_last(typed + length, name + other, shorter - first);
    return first && (first == shorter || (wrong <= 2 && 2 * wrong <= longer));
}
