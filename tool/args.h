/* The command line. */
#ifndef ARGS_H
#define ARGS_H

#include "options.h"

#include <stddef.h>
#include <stdint.h>

struct request;

/* A verb: the file it is given, the options it needs and those it may have, what it does. */
struct job {
    const char *name, *operand;
    unsigned needs, may;
    int (*run)(const struct request *request);
    const char *result;         /* what -o writes; NULL where there is no -o */
    const char *does, *example; /* for people: a line, and the words of a command line */
};

struct request {
    const struct job *job;
    const char *operand;
    const char *value[OPTIONS]; /* NULL where the option isn't given */
};

/* Reads the command line; bad usage ends the tool, and so do --help and --version. */
struct request read_request(char **words, const struct job *jobs, size_t count);

/* What the value of an option is called for a verb; NULL where the option stands alone. */
const char *value_name(const struct job *job, enum option option);

/* An option's number, or `otherwise` where it isn't given. */
uint64_t option_number(const struct request *request, enum option option, uint64_t otherwise);

#endif
