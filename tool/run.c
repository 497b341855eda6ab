#include "entry.h"
#include "files.h"
#include "host.h"
#include "image.h"
#include "jobs.h"
#include "lists.h"
#include "output.h"
#include "progress.h"
#include "taking.h"

#include <inttypes.h>
#include <string.h>

/*
 * As many bytes as the map's regions have, in the output's own pages: those that are given, else zeros. What is
 * given in another length is refused by its length alone, and without an output only the length counts, since
 * the library never reads memory.
 */
static struct bytes take_memory(const struct report *r)
{
    struct text fault = {NULL, 0}; /* the library refuses such a map, whatever memory is */
    uint64_t total = map_total(r->call.board.map, &fault);
    const char *path = r->request->value[OPTION_MEMORY];
    struct bytes room = {NULL, 0};
    if (!path || r->request->value[OPTION_OUTPUT])
        room = output_room(total);
    uint64_t length = path ? read_into(room, path, MOST_MEMORY) : room.length;
    return length == room.length ? room : zeros(length);
}

static void take_board(struct report *r)
{
    struct board *b = &r->call.board;
    const char *const *value = r->request->value;
    b->map = read_map(value[OPTION_MAP]);
    if (value[OPTION_CPUID])
        b->table = strcmp(value[OPTION_CPUID], "host") ? read_table(value[OPTION_CPUID]) : host_table(note(r));
    b->mode = option_number(r->request, OPTION_MODE, 64);
    b->memory = take_memory(r);
}

static int finish_run(struct report *r)
{
    const struct runnelpin_answer *a = &r->call.answer;
    end_step();
    give_output(r, r->call.board.memory);
    if (!a->code)
        say(&r->words, "done: %" PRIu64 " command%s, %" PRIu64 " byte%s stored, entry 0x%" PRIx64, a->commands,
            plural(a->commands), a->stored, plural(a->stored), a->entry);
    note_entry(r);
    return finish(r);
}

int job_load(const struct request *request)
{
    struct report r = new_report(request);
    struct call *c = &r.call;
    const struct board *b = &c->board;
    take_image(&r);
    take_board(&r);
    begin_call("proving and loading", c->image.length);
    runnelpin_load(c->image.at, c->image.length, c->header.at, c->header.length, b->map.at, b->map.length, b->table.at,
                   b->table.length, b->mode, c->signature_length, b->memory.at, b->memory.length,
                   (uint8_t *)&c->answer, sizeof c->answer);
    return finish_run(&r);
}

int job_run(const struct request *request)
{
    struct report r = new_report(request);
    struct call *c = &r.call;
    const struct board *b = &c->board;
    c->image = read_file(request->operand, LARGEST);
    take_board(&r);
    begin_call("running", c->image.length);
    runnelpin_run(c->image.at, c->image.length, b->map.at, b->map.length, b->table.at, b->table.length, b->mode,
                  b->memory.at, b->memory.length, (uint8_t *)&c->answer, sizeof c->answer);
    return finish_run(&r);
}
