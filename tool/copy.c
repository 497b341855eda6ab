#include "files.h"
#include "image.h"
#include "jobs.h"
#include "taking.h"

int job_copy(const struct request *request)
{
    struct report r = new_report(request);
    struct bytes *file = &r.call.image;
    *file = read_file(request->operand, LARGEST);
    if (file->length > LARGEST)
        r.call.answer.code = RUNNELPIN_ARGUMENT;
    else
        say(&r.words, "done: %zu byte%s copied", file->length, plural(file->length));
    give_output(&r, *file);
    return finish(&r);
}
