/* Text that grows. */
#ifndef TEXT_H
#define TEXT_H

#include "bytes.h"

struct text {
    char *at; /* NULL while empty */
    size_t length;
};

void say(struct text *text, const char *format, ...) __attribute__((format(printf, 2, 3)));

/* The ending of a noun behind a number: 1 byte, 2 bytes. */
const char *plural(uint64_t count);

/* Bytes as two hexadecimal digits each, with spaces between. */
void say_hex(struct text *text, const uint8_t *bytes, size_t length);

/* Bytes of a file in quotation marks, those that don't print as \xHH, at most 64 of them. */
void say_quoted(struct text *text, const uint8_t *bytes, size_t length);

#endif
