#define _DEFAULT_SOURCE /* S_ISREG, STDIN_FILENO */
#include "settle.h"

#include "fail.h"
#include "files.h"
#include "json.h"

#include <string.h>
#include <unistd.h>

/* The files that are read besides the operand. The first ones are people's own, which no result may replace. */
static const enum option read_too[] = {OPTION_HEADER, OPTION_MAP, OPTION_CPUID, OPTION_MEMORY};

enum { KEPT = 3, READ = sizeof read_too / sizeof *read_too };

static int is_dash(const char *path)
{
    return path && !strcmp(path, "-");
}

static void settle_input(const char **path, int *dashes)
{
    if (!is_dash(*path))
        return;
    if ((*dashes)++)
        fail("standard input can be given only once");
    *path = standard_input;
}

/* Whether there is something to be known of the file, and it is a regular one. */
static int is_file(const char *path, struct stat *about)
{
    int is_known = path == standard_input    ? !fstat(STDIN_FILENO, about)
                   : path == standard_output ? !fstat(STDOUT_FILENO, about)
                                             : path && !stat(path, about);
    return is_known && S_ISREG(about->st_mode);
}

static int is_same_file(const char *one, const char *other)
{
    struct stat a, b;
    return is_file(one, &a) && is_file(other, &b) && is_one_file(&a, &b);
}

/* Whether the option is given a file, which 'host' is not. */
static int has_file(const struct request *request, enum option option)
{
    const char *value = request->value[option];
    return value && (option != OPTION_CPUID || strcmp(value, "host"));
}

void settle_files(struct request *request)
{
    const char **value = request->value;
    int dashes = 0;
    settle_input(&request->operand, &dashes);
    json_begin_with(request->operand);
    if (is_dash(value[OPTION_OUTPUT]))
        value[OPTION_OUTPUT] = standard_output;
    if (value[OPTION_PARTIAL] && !value[OPTION_OUTPUT])
        fail("--partial has nowhere to write to: give -o FILE");
    for (int i = 0; i < READ; i++) {
        enum option o = read_too[i];
        settle_input(&value[o], &dashes);
        if (i < KEPT && has_file(request, o) && is_same_file(value[OPTION_OUTPUT], value[o]))
            fail("-o and %s are the same file: %s", options[o].name, value[OPTION_OUTPUT]);
    }
}
