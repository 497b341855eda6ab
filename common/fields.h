/* The fields of an image's header. */
#ifndef FIELDS_H
#define FIELDS_H

#include <stdint.h>

/* A header has at least so many bytes: all of its fields. */
enum { LEAST_HEADER = 36 };

enum field {
    FIELD_MAGIC,
    FIELD_BLOCK_COUNT,
    FIELD_BLOCK_SIZE,
    FIELD_SIGNATURE_LENGTH,
    FIELD_HEADER_SIZE,
    FIELD_HASHSUM_LENGTH,
    FIELD_HASH_1,
    FIELD_HASH_2,
    FIELD_HASH_3,
    FIELD_HASH_4,
    FIELD_SCHEME,
    FIELD_RESERVED,
    FIELD_PADDING,
    FIELDS
};

/* A field's first byte and its width. */
struct field_place {
    uint8_t at, width;
};

extern const struct field_place field_places[FIELDS];

/* The number in a field of a header that has all of them. */
uint64_t field(const uint8_t *header, enum field which);

#endif
