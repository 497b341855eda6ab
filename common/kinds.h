/* The kinds of commands. */
#ifndef KINDS_H
#define KINDS_H

#include <stddef.h>
#include <stdint.h>

enum { COMMAND_WRITE, COMMAND_FILL, COMMAND_ENTRY, COMMAND_CHECK, COMMAND_HEADER = 16, MOST_PARAMETERS = 88 };

/* The data lengths that a command may have, and how many of those bytes are parameters. */
struct kind {
    const char *name;
    uint64_t first_id, last_id, least, most;
    size_t parameters;
};

/* NULL for an ID that no command has. */
const struct kind *kind_of(uint64_t id);

#endif
