#include "utf8.h"

enum { MOST_BYTES = 4 };

/* A character of so many bytes: what its first byte begins with, and the least that needs them all. */
static const struct {
    unsigned char mask, lead;
    uint32_t least;
} forms[MOST_BYTES] = {{0x80, 0x00, 0}, {0xe0, 0xc0, 0x80}, {0xf0, 0xe0, 0x800}, {0xf8, 0xf0, 0x10000}};

static size_t form_of(unsigned char first)
{
    size_t form = 0;
    while (form < MOST_BYTES && (first & forms[form].mask) != forms[form].lead)
        form++;
    return form;
}

size_t character_at(const char *text, size_t length, uint32_t *character)
{
    const unsigned char *at = (const unsigned char *)text;
    size_t form = length ? form_of(at[0]) : MOST_BYTES;
    if (form == MOST_BYTES || form >= length)
        return 0;
    uint32_t value = at[0] & ~forms[form].mask & 0xffu;
    for (size_t i = 1; i <= form; i++) {
        if ((at[i] & 0xc0) != 0x80)
            return 0;
        value = value << 6 | (at[i] & 0x3fu);
    }
    if (value < forms[form].least || value > 0x10ffff || (value >= 0xd800 && value <= 0xdfff))
        return 0;
    *character = value;
    return form + 1;
}

int is_control(uint32_t character)
{
    return character < ' ' || (character >= 0x7f && character <= 0x9f);
}
