/* The bytes of a command file: as they lie, or in the blocks of an image. */
#ifndef STREAM_H
#define STREAM_H

#include <stddef.h>
#include <stdint.h>

struct stream {
    const uint8_t *at;                         /* the file or image */
    uint64_t start;                            /* of the file or the first block in it */
    uint64_t length;                           /* of the file */
    uint64_t known;                            /* how many bytes count: those of proved blocks */
    uint64_t block_size, hash_length, padding; /* of the blocks that hold the file */
};

struct stream stream_of_file(const uint8_t *file, uint64_t length);

/* The file in an image whose header is sound. */
struct stream stream_of_image(const uint8_t *image);

/* How many bytes of the file stand before a block, counted from 1. */
uint64_t bytes_before_block(const struct stream *file, uint64_t block);

/* The block that holds a byte of the file, counted from 1. */
uint64_t block_of_byte(const struct stream *file, uint64_t offset);

void copy_from(const struct stream *file, uint64_t offset, uint8_t *to, size_t length);

#endif
