/* The commands of a file, one behind the other. */
#ifndef COMMAND_H
#define COMMAND_H

#include "kinds.h"
#include "stream.h"
#include "text.h"

/* Where a fill's parameters have its pattern. */
enum { FILL_PATTERN = 16 };

struct command {
    uint64_t offset;  /* of its first byte in the file */
    const char *name; /* NULL for an unknown one */
    uint64_t id, length;
    uint64_t address, count;    /* where it stores, and how many bytes */
    int is_known;               /* its header counts */
    int has_address, has_count; /* which of its parameters count */
    int has_pattern, has_check;
    uint8_t parameters[MOST_PARAMETERS];
};

/* The registers that CPUID gives its results in, by their numbers. */
enum { REGISTERS = 4 };
extern const char *const register_names[REGISTERS];

/* The parameters of a CPUID check. */
struct check {
    uint64_t eax, ecx, value, mask;
    unsigned number;     /* of the register; none where it is over 3 */
    const uint8_t *text; /* up to its zero byte, or all of it */
    size_t text_length;
};

/* Of a command that has a check. */
struct check check_of(const struct command *command);

/*
 * Reads the command at an offset within the file, as far as its bytes count. Gives the refusal that
 * the file alone decides, whatever map and table there are, or 0.
 */
uint64_t read_command(const struct stream *file, uint64_t offset, struct command *command);

/* Name, address and count; what is checked. */
void say_command(struct text *text, const struct command *command);

/* A walk through the commands of a file. */
struct walk {
    const struct stream *file;
    struct command command; /* the one that the walk stands at */
    uint64_t code;          /* the refusal that the file alone decides, once ended */
    uint64_t offset;        /* the first byte behind the commands that are whole and sound */
    uint64_t whole;         /* how many those are */
    uint64_t entry;         /* the last one set */
    int has_entry, ended;
};

/* Judges the magic. A walk that ends without a refusal, short of the file's end, met a byte that doesn't count. */
struct walk begin_walk(const struct stream *file);

/* Goes on to the next command: whether there is one to be shown, which may be a refused one. */
int next_command(struct walk *walk);

#endif
