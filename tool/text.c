#include "text.h"

#include <stdarg.h>
#include <stdio.h>

void say(struct text *text, const char *format, ...)
{
    va_list values, again;
    va_start(values, format);
    va_copy(again, values);
    size_t more = (size_t)vsnprintf(NULL, 0, format, values);
    text->at = allocate(text->at, text->length + more + 1);
    vsnprintf(text->at + text->length, more + 1, format, again);
    text->length += more;
    va_end(again);
    va_end(values);
}

const char *plural(uint64_t count)
{
    return count == 1 ? "" : "s";
}

void say_hex(struct text *text, const uint8_t *bytes, size_t length)
{
    for (size_t i = 0; i < length; i++)
        say(text, "%s%02x", i ? " " : "", bytes[i]);
}

void say_quoted(struct text *text, const uint8_t *bytes, size_t length)
{
    const size_t most = 64;
    say(text, "\"");
    for (size_t i = 0; i < length && i < most; i++) {
        int prints = bytes[i] >= ' ' && bytes[i] <= '~' && bytes[i] != '"' && bytes[i] != '\\';
        say(text, prints ? "%c" : "\\x%02x", bytes[i]);
    }
    say(text, length > most ? "..\"" : "\"");
}
