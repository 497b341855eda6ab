#include "help.h"

#include "fail.h"
#include "print.h"
#include "runnelpin.h"
#include "text.h"

#include <ctype.h>
#include <string.h>

enum { COLUMNS = 80 };

void print_help(const struct job *jobs, size_t count)
{
    fputs("usage: runnelpin VERB FILE [OPTION]...\n\n", answers());
    for (size_t j = 0; j < count; j++)
        fprintf(answers(), "  %-9s  %s\n", jobs[j].name, jobs[j].does);
    fputs("\n"
          "'runnelpin help VERB' or 'runnelpin VERB --help' prints the options of a verb\n"
          "and an example. 'runnelpin --version' prints the version. The rest is in the\n"
          "manual: 'man runnelpin'.\n\n",
          answers());
    fprintf(answers(), "Exit status: %d done, %d refused, %d bad usage or a file that can't be read or\nwritten.\n",
            STATUS_DONE, STATUS_REFUSED, STATUS_BAD);
    end_answer();
}

/* A part of a usage line, on the next line where this one is full. */
static void put_part(const struct text *part, size_t *column)
{
    static const char next_line[] = "\n          ";
    if (*column + 1 + part->length > COLUMNS) {
        fputs(next_line, answers());
        *column = sizeof next_line - 2;
    }
    *column += 1 + part->length;
    fprintf(answers(), " %s", part->at);
}

static void say_option(struct text *text, const struct job *job, enum option o)
{
    const char *value = value_name(job, o);
    say(text, "%s", options[o].name);
    if (value)
        say(text, " %s", value);
}

static void put_options(const struct job *job, unsigned which, const char *before, const char *behind, size_t *column)
{
    for (int o = 0; o < OPTIONS; o++) {
        struct text part = {NULL, 0};
        if (!(which >> o & 1))
            continue;
        say(&part, "%s", before);
        say_option(&part, job, o);
        say(&part, "%s", behind);
        put_part(&part, column);
    }
}

static void put_usage(const struct job *job)
{
    size_t column = (size_t)fprintf(answers(), "usage: runnelpin %s %s", job->name, job->operand);
    put_options(job, job->needs, "", "", &column);
    put_options(job, job->may, "[", "]", &column);
    fputc('\n', answers());
}

/* The names of an option, and its meaning in as many lines as it has. */
static void put_meaning(const struct job *job, enum option o)
{
    struct text names = {NULL, 0};
    if (options[o].letter)
        say(&names, "%s, ", options[o].letter);
    say_option(&names, job, o);
    const char *shown = names.at;
    for (const char *line = option_meaning(o, job->name); *line; shown = "") {
        size_t length = strcspn(line, "\n");
        fprintf(answers(), "  %-17s  %.*s\n", shown, (int)length, line);
        line += length + (line[length] == '\n');
    }
}

void print_verb_help(const struct job *job)
{
    put_usage(job);
    fprintf(answers(), "\n%c%s.\n\n", toupper((unsigned char)job->does[0]), job->does + 1);
    unsigned taken = job->needs | job->may | TAKES(HELP);
    for (int o = 0; o < OPTIONS; o++)
        if (taken >> o & 1)
            put_meaning(job, o);
    fprintf(answers(), "\nExample:\n  runnelpin %s %s\n", job->name, job->example);
    end_answer();
}

void print_version(void)
{
    fputs("runnelpin " RUNNELPIN_VERSION "\n", answers());
    end_answer();
}
