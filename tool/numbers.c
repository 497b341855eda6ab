#include "numbers.h"

#include <string.h>

/* What the digit stands for; 16 for any other character. */
static unsigned digit(char character)
{
    static const char digits[] = "0123456789abcdefABCDEF";
    const char *found = character ? strchr(digits, character) : NULL;
    if (!found)
        return 16;
    unsigned place = (unsigned)(found - digits);
    return place < 16 ? place : place - 6;
}

int read_number(const char *text, size_t length, uint64_t most, uint64_t *value)
{
    unsigned base = 10;
    if (length >= 2 && text[0] == '0' && (text[1] == 'x' || text[1] == 'X')) {
        base = 16;
        text += 2;
        length -= 2;
    }
    *value = 0;
    for (size_t i = 0; i < length; i++) {
        unsigned d = digit(text[i]);
        if (d >= base || *value > (most - d) / base)
            return 0;
        *value = *value * base + d;
    }
    return length > 0;
}
