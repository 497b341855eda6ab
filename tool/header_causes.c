#include "causes.h"

#include <inttypes.h>

enum { MOST_BLOCK = 1 << 20 };

static void say_magic(struct text *text, const struct call *c)
{
    say_no_image(text, c->image);
}

/* Of a header, or of what pack is asked for. */
static uint64_t hash_id(const struct call *c, int i)
{
    return c->packing ? c->packing->ids[i] : field(c->header.at, FIELD_HASH_1 + i);
}

static uint64_t hashsum_length(const struct call *c)
{
    return runnelpin_hashsum_length(hash_id(c, 0), hash_id(c, 1), hash_id(c, 2), hash_id(c, 3));
}

static void say_hash(struct text *text, const struct call *c)
{
    int i = 0;
    while (i < HASHES - 1 && hash_of_id(hash_id(c, i)) && hash_id(c, 0))
        i++;
    if (hash_id(c, i))
        say(text, "hash %d has ID %" PRIu64 ", which is not known (", i + 1, hash_id(c, i));
    else
        say(text, "hash 1 is none, but the first must be a hash (");
    say_hashes(text, i > 0);
    say(text, ")");
}

static void say_hashsum_length(struct text *text, const struct call *c)
{
    say(text, "it is %" PRIu64 ", but must be %" PRIu64 " for the hashes in the header (",
        field(c->header.at, FIELD_HASHSUM_LENGTH), hashsum_length(c));
    for (int i = 0; i < HASHES; i++) /* the first is never none */
        if (hash_id(c, i))
            say(text, "%s%s", i ? ", " : "", hash_of_id(hash_id(c, i))->name);
    say(text, ")");
}

static void say_header_size(struct text *text, const struct call *c)
{
    uint64_t size = field(c->header.at, FIELD_HEADER_SIZE), sum = hashsum_length(c);
    if (size != LEAST_HEADER + sum)
        say(text, "it is %" PRIu64 ", but must be %" PRIu64 " (%d plus the hashsum length, %" PRIu64 ")", size,
            LEAST_HEADER + sum, LEAST_HEADER, sum);
    else if (!c->request->value[OPTION_HEADER])
        say(text, "it is %" PRIu64 ", but the image has only %zu bytes", size, c->image.length);
    else
        say(text, "the approved header has %zu bytes, but its size field says %" PRIu64 "; %s", c->header.length, size,
            c->header.length == c->image.length ? "did you pass the image?" : "give the header and nothing else");
}

static void say_scheme(struct text *text, const struct call *c)
{
    say(text, "it is %" PRIu64 ", but only 1 is supported", field(c->header.at, FIELD_SCHEME));
}

/* Without --signature the length that the header states is expected, unless none can have it. */
static void say_signature_length(struct text *text, const struct call *c)
{
    say(text, "it is %" PRIu64, field(c->header.at, FIELD_SIGNATURE_LENGTH));
    if (c->request->value[OPTION_SIGNATURE])
        say(text, " in the header, but --signature says %" PRIu64, c->signature_length);
    else
        say(text, ", but must be 1 to %d", MOST_SIGNATURE);
}

static void say_blocks(struct text *text, const struct call *c)
{
    const uint8_t *header = c->header.at;
    uint64_t sum = hashsum_length(c), size = c->packing ? c->packing->block_size : field(header, FIELD_BLOCK_SIZE);
    if (!c->packing && !field(header, FIELD_BLOCK_COUNT))
        say(text, "block count is 0, but an image has at least one block");
    else if (size <= sum)
        say(text, "block size %" PRIu64 " is not above the hashsum length, %" PRIu64, size, sum);
    else if (size > MOST_BLOCK)
        say(text, "block size %" PRIu64 " is over %d", size, MOST_BLOCK);
    else
        say(text, "padding length %" PRIu64 " is not below the block data length, %" PRIu64,
            field(header, FIELD_PADDING), size - sum);
    if (c->packing)
        say(text, "; give a %s --block", size <= sum ? "larger" : "smaller");
}

static void say_image_length(struct text *text, const struct call *c)
{
    uint64_t due = image_length(c->header.at), found = c->image.length;
    uint64_t apart = found < due ? due - found : found - due;
    say(text, "it is %" PRIu64 " byte%s too %s: %" PRIu64 " instead of %" PRIu64, apart, plural(apart),
        found < due ? "short" : "long", found, due);
}

cause *header_cause(uint64_t code)
{
    static cause *const causes[] = {
        [RUNNELPIN_HEADER_MAGIC] = say_magic,
        [RUNNELPIN_HASH_ID] = say_hash,
        [RUNNELPIN_HASHSUM_LENGTH] = say_hashsum_length,
        [RUNNELPIN_HEADER_SIZE] = say_header_size,
        [RUNNELPIN_SCHEME] = say_scheme,
        [RUNNELPIN_SIGNATURE_LENGTH] = say_signature_length,
        [RUNNELPIN_BLOCKS] = say_blocks,
        [RUNNELPIN_IMAGE_LENGTH] = say_image_length,
    };
    return code < sizeof causes / sizeof *causes ? causes[code] : NULL;
}
