/* What stands where in an image, as its header says. */
#ifndef IMAGE_H
#define IMAGE_H

#include "fields.h"
#include "runnelpin.h"
#include "stream.h"
#include "text.h"

#define IMAGE_MAGIC 0xe6019598u
#define FILE_MAGIC 0x8adc5fa2448cb65eu

/* The same in bytes, for people. */
#define IMAGE_BEGINS "98 95 01 e6"
#define FILE_BEGINS "(one begins with 5e b6 8c 44 a2 5f dc 8a)"

enum { LARGEST = 1 << 30, HASHES = 4, MOST_SIGNATURE = 4096 };

/* With _ for spaces. */
extern const char *const field_names[FIELDS];

/* The hashes by name, for people. */
#define HASH_NAMES "sha256, sha384, sha512 and none"

/* A hash that the library has: its name and its ID. */
struct hash {
    const char *name;
    uint64_t id;
};

/* The known ones, each with its ID; with `none` or without. */
void say_hashes(struct text *text, int with_none);

const struct hash *hash_named(const char *name, size_t length);
const struct hash *hash_of_id(uint64_t id);

/*
 * Whether it looks like a command file, a damaged one too: half of the magic will do. No text has that, since
 * five bytes of the magic are not ASCII.
 */
int is_like_commands(struct bytes all);

/* Whether it begins with the whole magic. */
int is_command_file(struct bytes all);

/* Whether it looks like an image, a damaged one too: half of the magic will do, or sizes that fit. */
int is_like_image(struct bytes all);

/* The first bytes of a file, or that it has fewer. */
void say_beginning(struct text *text, const uint8_t *file, uint64_t length, size_t count);

/* That it is not an image; of one that looks like an image only that it begins with something else. */
void say_no_image(struct text *text, struct bytes all);

/* The header as the image itself has it, which nothing has approved. */
struct bytes own_header(struct bytes image);

/* How long an image with this header is. */
uint64_t image_length(const uint8_t *header);

/* Opens the image into a file, which is as long as the header says. */
struct runnelpin_answer open_image(struct bytes image, struct bytes header, uint64_t signature_length,
                                   struct bytes file);

/* The code that opening gives before it looks at a block, or 0. */
uint64_t judge_image(struct bytes image, struct bytes header, uint64_t signature_length);

#endif
