#include "image.h"
#include "jobs.h"
#include "output.h"
#include "taking.h"

int job_open(const struct request *request)
{
    struct report r = new_report(request);
    struct call *c = &r.call;
    struct bytes file = {NULL, 0};
    take_image(&r);
    c->answer.code = judge_image(c->image, c->header, c->signature_length);
    if (!c->answer.code) {
        file = output_room(stream_of_image(c->image.at).length);
        c->answer = open_image(c->image, c->header, c->signature_length, file);
        file.length = c->answer.stored;
    }
    give_output(&r, file);
    if (!c->answer.code)
        say(&r.words, "done: a file of %zu byte%s, all blocks proved", file.length, plural(file.length));
    return finish(&r);
}
