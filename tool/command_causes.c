#include "causes.h"

#include <inttypes.h>

static void say_unknown_kind(struct text *text, const struct call *c)
{
    say_no_image(text, c->image);
    say(text, "; not a command file either " FILE_BEGINS);
}

/* The first bytes of the file in an image are proved where they were judged: those of a short one weren't. */
static void say_file_magic(struct text *text, const struct call *c)
{
    struct stream file = commands_of(c);
    uint8_t first[8] = {0};
    if (c->is_shown && !c->is_image && !is_like_commands(c->image)) {
        say_unknown_kind(text, c);
        return;
    }
    if (file.length >= sizeof first)
        copy_from(&file, 0, first, sizeof first);
    say(text, "%snot a command file " FILE_BEGINS ": ", c->is_image ? "the file in the image is " : "");
    say_beginning(text, first, file.length, sizeof first);
    if (!c->is_image && little(first, 4) == IMAGE_MAGIC)
        say(text, "; this is an image: use load");
}

/* How much is missing, if the command's header is there to tell. */
static void say_cut(struct text *text, const struct call *c)
{
    uint64_t left = commands_of(c).length - c->answer.place;
    uint64_t missing = left < COMMAND_HEADER ? 0 : refused_command(c).length - (left - COMMAND_HEADER);
    if (missing)
        say(text, "it runs %" PRIu64 " byte%s past the end of the file", missing, plural(missing));
    else
        say(text, "it runs past the end of the file");
}

static void say_data_length(struct text *text, const struct call *c)
{
    struct command command = refused_command(c);
    const struct kind *kind = kind_of(command.id);
    say(text, "its data length is %" PRIu64 ", but must be %s%" PRIu64, command.length,
        kind->least < kind->most ? "at least " : "", kind->least);
}

static void say_reach(struct text *text, const struct call *c)
{
    struct command command = refused_command(c);
    uint64_t mode = c->board.mode, most = reach_limit(64);
    if (c->is_shown)
        say(text, "no mode reaches 0x%" PRIx64 " and above", most);
    else
        say(text, "mode %" PRIu64 " reaches only addresses below 0x%" PRIx64, mode, reach_limit(mode));
    if (mode == 32 && command.address < most && command.count <= most - command.address)
        say(text, " (--mode 64: below 0x%" PRIx64 ")", most);
}

static void say_range(struct text *text, const struct call *c)
{
    struct command command = refused_command(c);
    say(text, "0x%" PRIx64 " is in no region of %s", first_outside(c->board.map, command.address), c->board.map.path);
    if (command.count > 1)
        say(text, " (range 0x%" PRIx64 " to 0x%" PRIx64 ")", command.address, command.address + command.count - 1);
}

static void say_no_table(struct text *text, const struct call *c)
{
    say(text, "the command is a CPUID check, ");
    if (c->board.table.path)
        say(text, "but %s has no records", c->board.table.path);
    else
        say(text, "which needs one: give --cpuid FILE or --cpuid host");
}

static void say_register(struct text *text, const struct call *c)
{
    struct command command = refused_command(c);
    say(text, "it is %u, but must be 0 to 3, for EAX, EBX, ECX or EDX", check_of(&command).number);
}

static void say_no_record(struct text *text, const struct call *c)
{
    struct command command = refused_command(c);
    struct check check = check_of(&command);
    say(text, "%s has no record with the inputs EAX 0x%" PRIx64 ", ECX 0x%" PRIx64, c->board.table.path, check.eax,
        check.ecx);
}

static void say_found(struct text *text, const struct call *c)
{
    struct command command = refused_command(c);
    struct check check = check_of(&command);
    uint64_t found = little(table_results(c->board.table, check.eax, check.ecx) + 4 * check.number, 4);
    const char *name = register_names[check.number];
    say(text, "%s is 0x%" PRIx64 ", so %s & 0x%" PRIx64 " is 0x%" PRIx64 " instead of 0x%" PRIx64, name, found, name,
        check.mask, found & check.mask, check.value);
}

static void say_no_entry(struct text *text, const struct call *c)
{
    uint64_t count = c->answer.commands;
    say(text, "the file ends after %" PRIu64 " command%s, without an entry command", count, plural(count));
}

cause *command_cause(uint64_t code)
{
    static cause *const causes[] = {
        [RUNNELPIN_FILE_MAGIC] = say_file_magic,
        [RUNNELPIN_COMMAND_CUT] = say_cut,
        [RUNNELPIN_COMMAND_LENGTH] = say_data_length,
        [RUNNELPIN_NOT_REACHABLE] = say_reach,
        [RUNNELPIN_NOT_RAM] = say_range,
        [RUNNELPIN_CPUID_MISSING] = say_no_table,
        [RUNNELPIN_REGISTER] = say_register,
        [RUNNELPIN_NO_RECORD] = say_no_record,
        [RUNNELPIN_CHECK_FAILED] = say_found,
        [RUNNELPIN_NO_ENTRY] = say_no_entry,
    };
    return code < sizeof causes / sizeof *causes ? causes[code] : NULL;
}
