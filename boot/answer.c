#include "answer.h"

#include "codes.h"
#include "kinds.h"
#include "little.h"
#include "serial.h"
#include "stream.h"

enum { FILE_MAGIC_BYTES = 8 };

/* A command whose header counts: its name or ID and, if its parameters count too, the address among them. */
static void say_command(const struct stream *file, uint64_t offset)
{
    uint8_t header[COMMAND_HEADER], address[8];
    copy_from(file, offset, header, sizeof header);
    uint64_t id = little(header, 2);
    const struct kind *kind = kind_of(id);

    say(kind ? kind->name : "command");
    if (!kind || kind->first_id != kind->last_id) {
        say(" ");
        say_number(id);
    }
    if (id <= COMMAND_ENTRY && file->known - offset - COMMAND_HEADER >= kind->parameters) {
        copy_from(file, offset + COMMAND_HEADER, address, sizeof address);
        say(" at ");
        say_address(little(address, sizeof address));
    }
}

/* Where the command behind those done begins. */
static uint64_t skip_done(const struct stream *file, uint64_t commands)
{
    uint64_t offset = FILE_MAGIC_BYTES;
    for (; commands; commands--) {
        uint8_t length[8];
        copy_from(file, offset + 8, length, sizeof length);
        offset += COMMAND_HEADER + little(length, sizeof length);
    }
    return offset;
}

/* The block, and the command that the blocks before it broke off in. */
static void say_block(struct runnelpin_answer answer, struct stream file)
{
    say("; block ");
    say_number(answer.place);
    file.known = bytes_before_block(&file, answer.place);
    uint64_t offset = skip_done(&file, answer.commands);
    if (file.known < offset + COMMAND_HEADER)
        return;
    say(", within command ");
    say_number(answer.commands + 1);
    say(" at file offset ");
    say_number(offset);
    say(": ");
    say_command(&file, offset);
}

static void say_refused_command(struct runnelpin_answer answer, struct stream file)
{
    say("; file offset ");
    say_number(answer.place);
    if (file.length - answer.place < COMMAND_HEADER)
        return;
    /* What was judged is proved, and only that may be shown: the address by these two codes, else the header alone. */
    if (answer.code != RUNNELPIN_NOT_REACHABLE && answer.code != RUNNELPIN_NOT_RAM)
        file.known = answer.place + COMMAND_HEADER;
    say(": ");
    say_command(&file, answer.place);
}

static void say_place(struct runnelpin_answer answer, struct slice image, enum place_kind kind)
{
    if (kind == BLOCK_NUMBER)
        say_block(answer, stream_of_image(image.at));
    if (kind == FILE_OFFSET)
        say_refused_command(answer, stream_of_image(image.at));
    if (kind == FILE_LENGTH) {
        say("; file length ");
        say_number(answer.place);
    }
}

void say_answer(struct runnelpin_answer answer, struct slice image)
{
    const struct code *code = code_of(answer.code);

    say(answer.code == RUNNELPIN_DONE ? "loaded: " : "refused: ");
    say_number(answer.code);
    if (code) {
        say(", ");
        say(code->name);
        say(": ");
        say(code->meaning);
        say_place(answer, image, code->place_kind);
    }
    say("; commands done ");
    say_number(answer.commands);
    say(", bytes stored ");
    say_number(answer.stored);
    say(", entry ");
    say_address(answer.entry);
    say("\n");
}
