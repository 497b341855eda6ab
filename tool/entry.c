#include "entry.h"

#include <inttypes.h>

void note_entry(struct report *r)
{
    uint64_t entry = r->call.answer.entry;
    if (!r->call.answer.code && first_outside(r->call.board.map, entry) == entry)
        say(note(r), "the entry 0x%" PRIx64 " is in no region of the map; the example stubs refuse to jump there",
            entry);
}

static int stores_at(const struct command *c, uint64_t address)
{
    return c->has_address && c->has_count && address >= c->address && address - c->address < c->count;
}

void note_bare_entry(struct report *r, const struct stream *file)
{
    uint64_t entry = r->call.answer.entry;
    struct walk w = begin_walk(file);
    while (next_command(&w))
        if (stores_at(&w.command, entry))
            return;
    say(note(r), "no write or fill stores a byte at the entry 0x%" PRIx64, entry);
}
