#include "answer.h"

#include "causes.h"
#include "codes.h"

#include <inttypes.h>

struct call new_call(const struct request *request)
{
    struct call c = {.request = request, .signature_length = 1, .board = {.mode = 64}};
    return c;
}

int is_of_operand(const struct call *c)
{
    return c->answer.code != RUNNELPIN_MAP && c->answer.code != RUNNELPIN_TABLE;
}

struct stream commands_of(const struct call *c)
{
    return c->is_image ? stream_of_image(c->image.at) : stream_of_file(c->image.at, c->image.length);
}

/* The command that the first byte which isn't proved belongs to, where the file holds commands. */
static void say_command_reached(struct text *text, const struct stream *file)
{
    struct walk w = begin_walk(file);
    while (next_command(&w)) {
    }
    if (w.code || !w.offset)
        return;
    say(text, "; command %" PRIu64 ", at file offset %" PRIu64 ", ", w.whole + 1, w.offset);
    if (w.command.is_known) {
        say(text, "is cut off there: ");
        say_command(text, &w.command);
    } else {
        say(text, "can't be read");
    }
}

static void say_block(struct text *text, const struct call *c)
{
    struct stream file = stream_of_image(c->image.at);
    uint64_t block = c->answer.place;
    file.known = bytes_before_block(&file, block);
    say(text, "; block %" PRIu64 " of %" PRIu64 ", at image offset %" PRIu64, block,
        field(c->image.at, FIELD_BLOCK_COUNT), file.start + (block - 1) * file.block_size);
    say(text, "; proved file bytes: %" PRIu64 " of %" PRIu64, file.known, file.length);
    say_command_reached(text, &file);
}

/* Whether the code is given for a command's header alone, before the parameters behind it are looked at. */
static int is_of_header(uint64_t code)
{
    return code == RUNNELPIN_COMMAND_CUT || code == RUNNELPIN_COMMAND_ID || code == RUNNELPIN_COMMAND_LENGTH;
}

struct command refused_command(const struct call *c)
{
    struct command command;
    struct stream file = commands_of(c);
    /* What was judged is proved, and only that may be shown. */
    if (c->is_image && is_of_header(c->answer.code) && file.length - c->answer.place >= COMMAND_HEADER)
        file.known = bytes_before_block(&file, block_of_byte(&file, c->answer.place + COMMAND_HEADER - 1) + 1);
    read_command(&file, c->answer.place, &command);
    return command;
}

static void say_refused_command(struct text *text, const struct call *c)
{
    struct command command = refused_command(c);
    uint64_t left = commands_of(c).length - c->answer.place;
    say(text, "; file offset %" PRIu64 ": ", c->answer.place);
    if (left < COMMAND_HEADER)
        say(text, "only %" PRIu64 " of the %d bytes that a command begins with", left, COMMAND_HEADER);
    else
        say_command(text, &command);
}

static void say_place(struct text *text, const struct call *c, enum place_kind kind)
{
    switch (kind) {
    case NO_PLACE:
        break;
    case BLOCK_NUMBER:
        say_block(text, c);
        break;
    case FILE_OFFSET:
        say_refused_command(text, c);
        break;
    case FILE_LENGTH:
        say(text, "; file length %" PRIu64, c->answer.place);
        break;
    }
}

void say_refusal(struct text *text, const struct call *c)
{
    const struct code *code = code_of(c->answer.code);
    if (!code) {
        say(text, "refused: %" PRIu64 ", a code that this tool does not know", c->answer.code);
        return;
    }
    say(text, "refused: %" PRIu64 ", %s: ", c->answer.code, code->name);
    if (!say_cause(text, c))
        say(text, "%s", code->meaning);
    say_place(text, c, code->place_kind);
    if (c->board.map.length && !c->is_shown && code->effect == MAY_CHANGE)
        say(text, "; commands done %" PRIu64 ", bytes stored %" PRIu64 ", entry 0", c->answer.commands,
            c->answer.stored);
}
