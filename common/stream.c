#include "stream.h"

#include "fields.h"

struct stream stream_of_file(const uint8_t *file, uint64_t length)
{
    return (struct stream){ .at = file, .length = length, .known = length, .block_size = UINT64_MAX };
}

struct stream stream_of_image(const uint8_t *image)
{
    struct stream s = {
        .at = image,
        .start = field(image, FIELD_HEADER_SIZE) + field(image, FIELD_SIGNATURE_LENGTH),
        .block_size = field(image, FIELD_BLOCK_SIZE),
        .hash_length = field(image, FIELD_HASHSUM_LENGTH),
        .padding = field(image, FIELD_PADDING),
    };
    s.length = s.known = bytes_before_block(&s, field(image, FIELD_BLOCK_COUNT) + 1);
    return s;
}

uint64_t bytes_before_block(const struct stream *file, uint64_t block)
{
    return block == 1 ? 0 : (block - 1) * (file->block_size - file->hash_length) - file->padding;
}

uint64_t block_of_byte(const struct stream *file, uint64_t offset)
{
    return (file->padding + offset) / (file->block_size - file->hash_length) + 1;
}

void copy_from(const struct stream *file, uint64_t offset, uint8_t *to, size_t length)
{
    uint64_t data = file->block_size - file->hash_length;
    for (size_t i = 0; i < length; i++, offset++) {
        uint64_t within = (file->padding + offset) % data;
        uint64_t block = file->start + (block_of_byte(file, offset) - 1) * file->block_size;
        to[i] = file->at[block + file->hash_length + within];
    }
}
