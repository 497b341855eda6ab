#include "taking.h"

#include "codes.h"
#include "files.h"
#include "image.h"
#include "output.h"

#include <inttypes.h>

const char not_approved[] = "this is the image's own header, not an approved one";

static void take_signature_length(struct report *r)
{
    uint64_t own = runnelpin_stated_signature_length(r->call.header.at, r->call.header.length);
    r->call.signature_length = option_number(r->request, OPTION_SIGNATURE, own);
    if (!r->request->value[OPTION_SIGNATURE] && r->call.header.length >= LEAST_HEADER &&
        field(r->call.header.at, FIELD_SIGNATURE_LENGTH) == own)
        say(note(r), "expected signature length, from the header: %" PRIu64, own);
}

void take_image(struct report *r)
{
    r->call.is_image = 1;
    r->call.image = read_file(r->request->operand, LARGEST);
    r->call.header = read_file(r->request->value[OPTION_HEADER], LARGEST);
    take_signature_length(r);
}

/* Whether the output is to be written: on a refusal only if that is asked for and if there is something. */
static int is_wanted(const struct report *r)
{
    const struct code *code = code_of(r->call.answer.code);
    if (!r->call.answer.code)
        return 1;
    return r->request->value[OPTION_PARTIAL] && code && code->effect == MAY_CHANGE;
}

void give_output(struct report *r, struct bytes output)
{
    const char *path = r->request->value[OPTION_OUTPUT];
    if (!path || !is_wanted(r)) {
        drop_output();
        return;
    }
    write_output(output);
    if (r->call.answer.code)
        say(note(r), "partial output written: %s, %zu byte%s", path, output.length, plural(output.length));
}
