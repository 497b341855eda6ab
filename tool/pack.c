#include "fail.h"
#include "files.h"
#include "image.h"
#include "jobs.h"
#include "output.h"
#include "progress.h"
#include "taking.h"

#include <inttypes.h>
#include <string.h>

static void read_hashes(const char *names, uint64_t *ids)
{
    const char *name = names;
    for (int i = 0; i < HASHES; i++) {
        size_t length = strcspn(name, ",");
        const struct hash *hash = hash_named(name, length);
        if (!hash)
            break;
        ids[i] = hash->id;
        if (!name[length])
            return;
        name += length + 1;
    }
    fail("--hash %s: give up to four of " HASH_NAMES ", separated by commas", names);
}

static uint64_t pack_into(const struct packing *p, struct bytes image)
{
    begin_call("hashing and packing", p->file.length);
    uint64_t code = runnelpin_pack(p->file.at, p->file.length, p->ids[0], p->ids[1], p->ids[2], p->ids[3],
                                   p->block_size, p->signature_length, image.at, image.length);
    end_step();
    return code;
}

int job_pack(const struct request *request)
{
    struct report r = new_report(request);
    struct packing p = {.block_size = option_number(request, OPTION_BLOCK, 65536),
                        .signature_length = option_number(request, OPTION_SIGNATURE, 512)};
    const char *names = request->value[OPTION_HASH];
    read_hashes(names ? names : "sha512", p.ids);
    p.file = r.call.image = read_file(request->operand, LARGEST);
    r.call.signature_length = p.signature_length;
    r.call.packing = &p;
    struct bytes image = {NULL, 0};
    uint64_t code = pack_into(&p, image);
    if (code == RUNNELPIN_OUTPUT_LENGTH) {
        image = output_room(runnelpin_image_length(p.file.length, p.ids[0], p.ids[1], p.ids[2], p.ids[3],
                                                   p.block_size, p.signature_length));
        code = pack_into(&p, image);
    }
    r.call.answer.code = code;
    if (!code) {
        say(&r.words, "done: an image of %zu bytes, block count %" PRIu64 ", block size %" PRIu64 ", padding %" PRIu64,
            image.length, field(image.at, FIELD_BLOCK_COUNT), p.block_size, field(image.at, FIELD_PADDING));
        say(note(&r), "the image is not signed yet: its %" PRIu64 "-byte signature field is all zeros",
            p.signature_length);
        if (!is_command_file(p.file))
            say(note(&r), "the file is not a command file " FILE_BEGINS ": it can be opened, but not loaded");
    }
    give_output(&r, image);
    return finish(&r);
}
