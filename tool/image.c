#include "image.h"

#include "progress.h"

#include <inttypes.h>
#include <string.h>

const char *const field_names[FIELDS] = {
    [FIELD_MAGIC] = "magic",
    [FIELD_BLOCK_COUNT] = "block_count",
    [FIELD_BLOCK_SIZE] = "block_size",
    [FIELD_SIGNATURE_LENGTH] = "signature_length",
    [FIELD_HEADER_SIZE] = "header_size",
    [FIELD_HASHSUM_LENGTH] = "hashsum_length",
    [FIELD_HASH_1] = "hash_1",
    [FIELD_HASH_2] = "hash_2",
    [FIELD_HASH_3] = "hash_3",
    [FIELD_HASH_4] = "hash_4",
    [FIELD_SCHEME] = "signature_scheme",
    [FIELD_RESERVED] = "reserved",
    [FIELD_PADDING] = "padding_length",
};

static const struct hash hashes[] = {{"none", RUNNELPIN_NO_HASH},
                                     {"sha256", RUNNELPIN_SHA2_256},
                                     {"sha384", RUNNELPIN_SHA2_384},
                                     {"sha512", RUNNELPIN_SHA2_512}};

enum { KNOWN_HASHES = sizeof hashes / sizeof *hashes };

void say_hashes(struct text *text, int with_none)
{
    for (int i = with_none ? 0 : 1; i < KNOWN_HASHES; i++)
        say(text, "%" PRIu64 " %s%s", hashes[i].id, hashes[i].name, i < KNOWN_HASHES - 1 ? ", " : "");
}

const struct hash *hash_named(const char *name, size_t length)
{
    for (int i = 0; i < KNOWN_HASHES; i++)
        if (strlen(hashes[i].name) == length && !memcmp(hashes[i].name, name, length))
            return &hashes[i];
    return NULL;
}

const struct hash *hash_of_id(uint64_t id)
{
    for (int i = 0; i < KNOWN_HASHES; i++)
        if (hashes[i].id == id)
            return &hashes[i];
    return NULL;
}

/* Whether at least half of the bytes that spell the magic are where they belong. */
static int has_half(struct bytes all, uint64_t magic, size_t width)
{
    size_t same = 0;
    for (size_t i = 0; i < width && i < all.length; i++)
        same += all.at[i] == (uint8_t)(magic >> 8 * i);
    return same >= width / 2;
}

int is_like_commands(struct bytes all)
{
    return has_half(all, FILE_MAGIC, 8);
}

int is_command_file(struct bytes all)
{
    return all.length >= 8 && little(all.at, 8) == FILE_MAGIC;
}

static int has_fitting_sizes(struct bytes all)
{
    return all.length >= LEAST_HEADER && field(all.at, FIELD_HASHSUM_LENGTH) &&
           field(all.at, FIELD_HEADER_SIZE) == LEAST_HEADER + field(all.at, FIELD_HASHSUM_LENGTH);
}

int is_like_image(struct bytes all)
{
    return has_half(all, IMAGE_MAGIC, 4) || (has_fitting_sizes(all) && !is_like_commands(all));
}

void say_beginning(struct text *text, const uint8_t *file, uint64_t length, size_t count)
{
    if (!length) {
        say(text, "it is empty");
    } else if (length < count) {
        say(text, "it has only %" PRIu64 " byte%s", length, plural(length));
    } else {
        say(text, "it begins with ");
        say_hex(text, file, count);
    }
}

void say_no_image(struct text *text, struct bytes all)
{
    const size_t width = 4;
    if (!is_like_image(all))
        say(text, "not an image: ");
    say_beginning(text, all.at, all.length, width);
    say(text, all.length < width ? " (an image begins with " IMAGE_BEGINS ")" : " instead of " IMAGE_BEGINS);
    if (is_command_file(all))
        say(text, "; this is a command file: use pack or run");
}

struct bytes own_header(struct bytes image)
{
    if (image.length > LEAST_HEADER) {
        uint64_t size = field(image.at, FIELD_HEADER_SIZE);
        if (size < LEAST_HEADER)
            size = LEAST_HEADER;
        if (size < image.length)
            image.length = size;
    }
    return image;
}

uint64_t image_length(const uint8_t *header)
{
    return field(header, FIELD_HEADER_SIZE) + field(header, FIELD_SIGNATURE_LENGTH) +
           field(header, FIELD_BLOCK_COUNT) * field(header, FIELD_BLOCK_SIZE);
}

struct runnelpin_answer open_image(struct bytes image, struct bytes header, uint64_t signature_length,
                                   struct bytes file)
{
    struct runnelpin_answer answer;
    begin_call("proving", image.length);
    runnelpin_open(image.at, image.length, header.at, header.length, signature_length, file.at, file.length,
                   (uint8_t *)&answer, sizeof answer);
    end_step();
    return answer;
}

uint64_t judge_image(struct bytes image, struct bytes header, uint64_t signature_length)
{
    struct bytes none = {NULL, 0};
    uint64_t code = open_image(image, header, signature_length, none).code;
    return code == RUNNELPIN_OUTPUT_LENGTH ? RUNNELPIN_DONE : code;
}
