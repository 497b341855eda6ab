#include "command.h"

#include "board.h"
#include "image.h"
#include "little.h"
#include "runnelpin.h"

#include <inttypes.h>
#include <string.h>

enum { CHECK_TEXT = 24, TEXT_BYTES = 64 };

const char *const register_names[REGISTERS] = {"EAX", "EBX", "ECX", "EDX"};

struct check check_of(const struct command *c)
{
    const uint8_t *at = c->parameters, *text = at + CHECK_TEXT, *zero = memchr(text, 0, TEXT_BYTES);
    return (struct check){.eax = little(at + 4, 4),
                          .ecx = little(at, 4),
                          .value = little(at + 8, 4),
                          .mask = little(at + 12, 4),
                          .number = at[16],
                          .text = text,
                          .text_length = zero ? (size_t)(zero - text) : TEXT_BYTES};
}

/* The refusal that a command's parameters bring with any map and any table. */
static uint64_t judge_parameters(const struct command *c)
{
    uint64_t limit = reach_limit(64);
    if (c->has_address && (c->address >= limit || c->count > limit - c->address))
        return RUNNELPIN_NOT_REACHABLE;
    if (c->has_check && check_of(c).text_length == TEXT_BYTES)
        return RUNNELPIN_TEXT;
    if (c->has_check && check_of(c).number >= REGISTERS)
        return RUNNELPIN_REGISTER;
    return RUNNELPIN_DONE;
}

static void take_parameters(struct command *c)
{
    c->has_check = c->id == COMMAND_CHECK;
    c->has_address = c->id <= COMMAND_ENTRY;
    if (c->has_address)
        c->address = little(c->parameters, 8);
    if (c->id == COMMAND_FILL) {
        c->has_count = c->has_pattern = 1;
        c->count = little(c->parameters + 8, 8);
    }
}

uint64_t read_command(const struct stream *file, uint64_t offset, struct command *c)
{
    memset(c, 0, sizeof *c);
    c->offset = offset;
    if (file->length - offset < COMMAND_HEADER)
        return RUNNELPIN_COMMAND_CUT;
    if (file->known < offset + COMMAND_HEADER)
        return RUNNELPIN_DONE;
    uint8_t header[COMMAND_HEADER];
    copy_from(file, offset, header, sizeof header);
    c->is_known = 1;
    c->id = little(header, 2);
    c->length = little(header + 8, 8);
    const struct kind *kind = kind_of(c->id);
    if (!kind)
        return RUNNELPIN_COMMAND_ID;
    c->name = kind->name;
    if (c->length < kind->least || c->length > kind->most)
        return RUNNELPIN_COMMAND_LENGTH;
    if (c->id == COMMAND_WRITE) {
        c->has_count = 1;
        c->count = c->length - 8;
    }
    if (kind->parameters && file->known - offset - COMMAND_HEADER >= kind->parameters) {
        copy_from(file, offset + COMMAND_HEADER, c->parameters, kind->parameters);
        take_parameters(c);
    }
    return c->length > file->length - offset - COMMAND_HEADER ? RUNNELPIN_COMMAND_CUT : judge_parameters(c);
}

static void say_check(struct text *text, const struct command *c)
{
    struct check check = check_of(c);
    say(text, " of EAX 0x%" PRIx64 ", ECX 0x%" PRIx64 ": ", check.eax, check.ecx);
    if (check.number < REGISTERS)
        say(text, "%s", register_names[check.number]);
    else
        say(text, "register %u", check.number);
    say(text, " & 0x%" PRIx64 " = 0x%" PRIx64 ", ", check.mask, check.value);
    say_quoted(text, check.text, check.text_length);
}

void say_command(struct text *text, const struct command *c)
{
    say(text, "%s", c->name ? c->name : "command");
    if (!c->name || c->id > COMMAND_CHECK)
        say(text, " %" PRIu64, c->id);
    if (c->has_check) {
        say_check(text, c);
    } else if (c->has_count) {
        say(text, " of %" PRIu64 " byte%s", c->count, plural(c->count));
    } else if (!c->has_address) {
        say(text, " with %" PRIu64 " byte%s of data", c->length, plural(c->length));
    }
    if (c->has_pattern)
        say(text, " of 0x%02x", c->parameters[FILL_PATTERN]);
    if (c->has_address)
        say(text, " at 0x%" PRIx64, c->address);
}

struct walk begin_walk(const struct stream *file)
{
    struct walk w = {.file = file};
    uint8_t magic[8];
    if (file->length < sizeof magic) {
        w.code = RUNNELPIN_FILE_MAGIC;
    } else if (file->known >= sizeof magic) {
        copy_from(file, 0, magic, sizeof magic);
        if (little(magic, sizeof magic) == FILE_MAGIC)
            w.offset = sizeof magic;
        else
            w.code = RUNNELPIN_FILE_MAGIC;
    }
    w.ended = w.code || !w.offset;
    return w;
}

int next_command(struct walk *w)
{
    if (w->ended)
        return 0;
    if (w->offset == w->file->length) {
        w->ended = 1;
        w->code = w->has_entry ? RUNNELPIN_DONE : RUNNELPIN_NO_ENTRY;
        return 0;
    }
    w->code = read_command(w->file, w->offset, &w->command);
    uint64_t end = w->offset + COMMAND_HEADER + w->command.length;
    if (w->code || !w->command.is_known || end > w->file->known) {
        w->ended = 1;
        return w->command.is_known;
    }
    w->offset = end;
    w->whole++;
    if (w->command.id == COMMAND_ENTRY) {
        w->has_entry = 1;
        w->entry = w->command.address;
    }
    return 1;
}
