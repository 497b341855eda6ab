#include "listing.h"

#include "json.h"
#include "print.h"

#include <inttypes.h>

static int is_json;

void begin_listing(int in_json)
{
    is_json = in_json;
    if (is_json)
        json_open(NULL, '{');
}

int is_in_json(void)
{
    return is_json;
}

void open_part(const char *name, char bracket)
{
    if (is_json)
        json_open(name, bracket);
    else
        fprintf(answers(), "%s:\n", name);
}

void close_part(char bracket)
{
    if (is_json)
        json_close(bracket);
}

void list_number(const char *name, uint64_t value)
{
    if (is_json)
        json_number(name, value);
    else
        fprintf(answers(), "  %-16s  %" PRIu64 "\n", name, value);
}

void list_text(const char *name, const struct text *value)
{
    if (is_json)
        json_text(name, value);
    else
        fprintf(answers(), "  %-16s  %s\n", name, value->at);
}

void list_truth(const char *name, int is_true, const char *words)
{
    if (is_json)
        json_truth(name, is_true);
    else
        fprintf(answers(), "%s\n", words);
}
