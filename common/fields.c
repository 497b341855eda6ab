#include "fields.h"

#include "little.h"

const struct field_place field_places[FIELDS] = {
    [FIELD_MAGIC] = { 0, 4 },
    [FIELD_BLOCK_COUNT] = { 4, 4 },
    [FIELD_BLOCK_SIZE] = { 8, 4 },
    [FIELD_SIGNATURE_LENGTH] = { 12, 4 },
    [FIELD_HEADER_SIZE] = { 16, 2 },
    [FIELD_HASHSUM_LENGTH] = { 18, 2 },
    [FIELD_HASH_1] = { 20, 2 },
    [FIELD_HASH_2] = { 22, 2 },
    [FIELD_HASH_3] = { 24, 2 },
    [FIELD_HASH_4] = { 26, 2 },
    [FIELD_SCHEME] = { 28, 2 },
    [FIELD_RESERVED] = { 30, 2 },
    [FIELD_PADDING] = { 32, 4 },
};

uint64_t field(const uint8_t *header, enum field which)
{
    return little(header + field_places[which].at, field_places[which].width);
}
