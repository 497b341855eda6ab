#define _DEFAULT_SOURCE /* fstat, STDOUT_FILENO */
#include "report.h"

#include "fail.h"
#include "files.h"
#include "json.h"
#include "output.h"
#include "print.h"

#include <unistd.h>

struct report new_report(const struct request *request)
{
    struct report r = {.request = request, .call = new_call(request)};
    if (request->value[OPTION_OUTPUT])
        begin_output(request->value[OPTION_OUTPUT]);
    return r;
}

struct text *note(struct report *r)
{
    struct text *new = allocate(NULL, sizeof *new);
    *new = (struct text){NULL, 0};
    r->notes = allocate(r->notes, (r->notes_made + 1) * sizeof *r->notes);
    r->notes[r->notes_made++] = new;
    return new;
}

static void print_json(const struct report *r)
{
    const struct runnelpin_answer *a = &r->call.answer;
    if (!json_depth())
        json_open(NULL, '{');
    json_number("code", a->code);
    json_number("place", a->place);
    json_number("commands", a->commands);
    json_number("stored", a->stored);
    json_number("entry", a->entry);
    json_text("words", &r->words);
    json_open("notes", '[');
    for (size_t i = 0; i < r->notes_made; i++)
        json_text(NULL, r->notes[i]);
    json_close(']');
    json_close('}');
}

static void print_text(const struct report *r)
{
    print_line(answers(), "", r->words.at);
    for (size_t i = 0; i < r->notes_made; i++)
        print_line(answers(), "", r->notes[i]->at);
}

/* Whether answers and errors go to the same terminal, file or pipe. */
static int is_one_place(void)
{
    struct stat out, err;
    return !fstat(STDOUT_FILENO, &out) && !fstat(STDERR_FILENO, &err) && is_one_file(&out, &err);
}

/* Whether a refusal is told on standard error too, for people: not where it is there already or a result is. */
static int is_told_again(int is_json)
{
    return answers() != stderr && !is_on_standard_error() && (is_json || !is_one_place());
}

int finish(struct report *r)
{
    int is_refused = r->call.answer.code != 0, is_json = r->request->value[OPTION_JSON] != NULL;
    if (is_refused)
        say_refusal(&r->words, &r->call);
    if (is_json)
        print_json(r);
    else
        print_text(r);
    end_answer();
    if (is_refused && is_told_again(is_json))
        complain("%s%s%s", is_of_operand(&r->call) ? r->request->operand : "", is_of_operand(&r->call) ? ": " : "",
                 r->words.at);
    return is_refused ? STATUS_REFUSED : STATUS_DONE;
}
