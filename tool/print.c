#define _DEFAULT_SOURCE /* _exit */
#include "print.h"

#include "fail.h"
#include "progress.h"
#include "utf8.h"

#include <errno.h>
#include <stdlib.h>
#include <string.h>
#include <unistd.h>

static FILE *stream;
static int is_lost; /* and that has been said */

FILE *answers(void)
{
    return stream ? stream : stdout;
}

void answer_on(FILE *other)
{
    stream = other;
}

/* In place: a question mark is never longer. */
void make_printable(char *line)
{
    const char *from = line, *end = line + strlen(line);
    while (from < end) {
        uint32_t character = 0;
        size_t length = character_at(from, (size_t)(end - from), &character);
        if (is_control(character)) { /* and so is what no character was found in */
            *line++ = '?';
        } else {
            memmove(line, from, length);
            line += length;
        }
        from += length ? length : 1;
    }
    *line = 0;
}

void print_line(FILE *to, const char *before, char *line)
{
    end_step();
    make_printable(line);
    fprintf(to, "%s%s\n", before, line);
}

static int cant_flush(FILE *file)
{
    return fflush(file) || ferror(file);
}

void end_answer(void)
{
    if (is_lost || !cant_flush(answers()))
        return;
    is_lost = 1;
    fail("%s can't be written: %s", answers() == stdout ? "standard output" : "standard error", strerror(errno));
}

static void end_standard_output(void)
{
    if (is_lost || !cant_flush(stdout))
        return;
    complain("standard output can't be written: %s", strerror(errno));
    _exit(STATUS_BAD);
}

void end_answer_at_exit(void)
{
    atexit(end_standard_output);
}
