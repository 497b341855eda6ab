#include "causes.h"

#include <inttypes.h>

static void say_size(struct text *text, uint64_t length)
{
    if (length > LARGEST) /* read no further */
        say(text, " has over 2^30 bytes");
    else
        say(text, " has %" PRIu64 " byte%s", length, plural(length));
}

/* The image that pack would make, were it not too long. */
static uint64_t packed_length(const struct packing *p)
{
    uint64_t sum = runnelpin_hashsum_length(p->ids[0], p->ids[1], p->ids[2], p->ids[3]), data = p->block_size - sum;
    return LEAST_HEADER + sum + p->signature_length + (p->file.length + data - 1) / data * p->block_size;
}

static void say_argument(struct text *text, const struct call *c)
{
    if (c->signature_length < 1 || c->signature_length > MOST_SIGNATURE) {
        say(text, "the signature length is %" PRIu64 ", but must be 1 to %d", c->signature_length, MOST_SIGNATURE);
    } else if (c->packing && c->image.length <= LARGEST) {
        say(text, "its image would have %" PRIu64 " bytes, over the limit of 2^30", packed_length(c->packing));
    } else {
        say(text, "%s is over the limit of 2^30 bytes", c->is_image ? "the image" : "the file");
    }
}

static void say_map(struct text *text, const struct call *c)
{
    const struct board *b = &c->board;
    uint64_t total = map_total(b->map, text);
    if (!total)
        return;
    say(text, "%s has ", c->request->value[OPTION_MEMORY]);
    if (b->memory.length > MOST_MEMORY) /* read no further */
        say(text, "over 2^32 bytes");
    else
        say(text, "%zu byte%s", b->memory.length, plural(b->memory.length));
    say(text, ", but the regions of %s have %" PRIu64, b->map.path, total);
}

static void say_table(struct text *text, const struct call *c)
{
    say_table_fault(text, c->board.table);
}

static size_t same_bytes(struct bytes one, struct bytes other)
{
    size_t same = 0;
    while (same < one.length && same < other.length && one.at[same] == other.at[same])
        same++;
    return same;
}

/* Of a header in a file of its own, which the image doesn't begin with. */
static void say_other_header(struct text *text, const struct call *c, const char *path)
{
    size_t same = same_bytes(c->header, c->image);
    if (c->header.length >= LEAST_HEADER && c->header.length <= c->image.length) {
        say(text, "byte %zu is %02x in the image, but %02x in %s; wrong header, or the image was changed", same,
            c->image.at[same], c->header.at[same], path);
        return;
    }
    say(text, "%s", path);
    say_size(text, c->header.length);
    if (c->header.length < LEAST_HEADER)
        say(text, ", but a header has at least %d", LEAST_HEADER);
    else
        say(text, ", but the image only %zu", c->image.length);
    int is_cut = c->header.length >= LEAST_HEADER && same == c->image.length &&
                 c->image.length < field(c->header.at, FIELD_HEADER_SIZE);
    say(text, "; %s", is_cut ? "the image is cut off" : "give the header that was approved for this image");
}

static void say_approved(struct text *text, const struct call *c)
{
    const char *path = c->request->value[OPTION_HEADER];
    if (!is_like_image(c->image))
        say_no_image(text, c->image);
    else if (path)
        say_other_header(text, c, path);
    else
        say(text, "the image has only %zu byte%s, but a header alone has at least %d", c->image.length,
            plural(c->image.length), LEAST_HEADER);
}

static cause *given_cause(uint64_t code)
{
    static cause *const causes[] = {
        [RUNNELPIN_ARGUMENT] = say_argument,
        [RUNNELPIN_MAP] = say_map,
        [RUNNELPIN_TABLE] = say_table,
        [RUNNELPIN_APPROVED] = say_approved,
    };
    return code < sizeof causes / sizeof *causes ? causes[code] : NULL;
}

int say_cause(struct text *text, const struct call *c)
{
    cause *found = given_cause(c->answer.code);
    if (!found)
        found = header_cause(c->answer.code);
    if (!found)
        found = command_cause(c->answer.code);
    if (found)
        found(text, c);
    return found != NULL;
}
