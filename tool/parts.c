/* The parts of an image that stand before its blocks. */
#include "files.h"
#include "image.h"
#include "jobs.h"
#include "taking.h"

#include <inttypes.h>

int job_header(const struct request *request)
{
    struct report r = new_report(request);
    struct call *c = &r.call;
    c->is_image = 1;
    c->image = read_file(request->operand, LARGEST);
    c->header = own_header(c->image);
    c->signature_length = runnelpin_stated_signature_length(c->header.at, c->header.length);
    c->answer.code = judge_image(c->image, c->header, c->signature_length);
    give_output(&r, c->header);
    if (!c->answer.code) {
        say(&r.words, "done: a header of %zu bytes", c->header.length);
        say(note(&r), "%s", not_approved);
    }
    return finish(&r);
}

int job_signature(const struct request *request)
{
    struct report r = new_report(request);
    struct call *c = &r.call;
    take_image(&r);
    struct runnelpin_field part =
        runnelpin_signature(c->image.at, c->image.length, c->header.at, c->header.length, c->signature_length);
    if (part.length) {
        struct bytes signature = {c->image.at + part.start, part.length};
        give_output(&r, signature);
        say(&r.words, "done: a signature field of %" PRIu64 " byte%s, at image offset %" PRIu64, part.length,
            plural(part.length), part.start);
    } else {
        c->answer.code = judge_image(c->image, c->header, c->signature_length);
    }
    return finish(&r);
}
