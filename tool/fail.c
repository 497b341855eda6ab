#include "fail.h"

#include "json.h"
#include "print.h"
#include "progress.h"

#include <stdarg.h>
#include <stdlib.h>
#include <string.h>

/* Memory of its own, since that may be what is missing. */
static char line[1 << 14];

static int is_json;

void complain(const char *format, ...)
{
    va_list values;
    va_start(values, format);
    vsnprintf(line, sizeof line, format, values);
    va_end(values);
    print_line(stderr, "runnelpin: ", line);
}

void fail_in_json(const char *file)
{
    is_json = 1;
    json_begin_with(file);
}

/* The line as an answer, unless one has begun already or can't be written. */
static void print_object(void)
{
    struct text error = {line, strlen(line)};
    if (!is_json || json_depth() || ferror(answers()))
        return;
    json_open(NULL, '{');
    json_number("status", STATUS_BAD);
    json_text("error", &error);
    json_close('}');
}

void fail(const char *format, ...)
{
    va_list values;
    va_start(values, format);
    vsnprintf(line, sizeof line, format, values);
    va_end(values);
    end_step();
    print_object();
    fflush(answers());
    if (!is_json || answers() != stderr)
        print_line(stderr, "runnelpin: ", line);
    exit(STATUS_BAD);
}
