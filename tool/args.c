#include "args.h"

#include "fail.h"
#include "help.h"
#include "near.h"
#include "numbers.h"
#include "print.h"
#include "text.h"
#include "words.h"

#include <stdlib.h>
#include <string.h>

const char *value_name(const struct job *job, enum option option)
{
    return option == OPTION_OUTPUT && job && job->result ? job->result : options[option].value;
}

static int takes(const struct job *job, int option)
{
    return (job->needs | job->may | TAKES(HELP) | TAKES(VERSION)) >> option & 1;
}

static const struct job *job_named(const char *name, const struct job *jobs, size_t count)
{
    const char *meant = NULL;
    for (size_t j = 0; j < count; j++) {
        if (!strcmp(jobs[j].name, name))
            return &jobs[j];
        if (!meant && is_near(name, jobs[j].name))
            meant = jobs[j].name;
    }
    if (meant)
        fail("unknown verb: %s; did you mean %s?", name, meant);
    fail("unknown verb: %s; 'runnelpin --help' lists the verbs", name);
}

/* Of an option that no verb has: names one of the verb's, or of any while there is none yet, that may be meant. */
static void refuse_unknown(const char *text, const struct job *job)
{
    struct text name = {NULL, 0};
    say(&name, "%.*s", (int)strcspn(text, "="), text);
    for (int o = 0; o < OPTIONS; o++)
        if ((!job || takes(job, o)) && is_near(name.at, options[o].name))
            fail("unknown option %s; did you mean %s?", name.at, options[o].name);
    if (job)
        fail("unknown option %s; 'runnelpin help %s' lists the options of %s", name.at, job->name, job->name);
    fail("unknown option %s; see 'runnelpin --help'", name.at);
}

/* Of an option that only other verbs have: names them. */
static void refuse_foreign(const struct job *job, int option, const struct job *jobs, size_t count)
{
    struct text others = {NULL, 0};
    for (size_t j = 0; j < count; j++)
        if (takes(&jobs[j], option))
            say(&others, "%s%s", others.length ? ", " : "", jobs[j].name);
    fail("%s is not an option of %s, only of %s", options[option].name, job->name, others.at);
}

static void take_option(struct request *request, const struct word *word)
{
    if (word->option == UNKNOWN_OPTION)
        refuse_unknown(word->text, request->job);
    const char *name = options[word->option].name, *needed = value_name(request->job, word->option);
    if (request->value[word->option])
        fail("%s is given twice", name);
    if (!needed && word->value)
        fail("%s takes no value", name);
    if (needed && !word->value)
        fail("%s needs a value: %s", name, needed);
    if (needed && !*word->value)
        fail("%s needs a value that is not empty: %s", name, needed);
    if (!strncmp(word->text, "-o=", 3)) /* nobody means a file whose name begins with = */
        fail("%s: write -o %s", word->text, word->text[3] ? word->text + 3 : needed);
    request->value[word->option] = needed ? word->value : "";
}

/* The first word that is no option is the verb, the second one its file. */
static void take_operand(struct request *request, const char *text, const struct job *jobs, size_t count)
{
    if (!request->job) {
        request->job = job_named(text, jobs, count);
        return;
    }
    if (request->operand)
        fail("%s takes only one %s; %s is one too many", request->job->name, request->job->operand, text);
    if (!*text)
        fail("%s: the name of %s is empty", request->job->name, request->job->operand);
    request->operand = text;
}

static void check_options(const struct request *request, const struct job *jobs, size_t count)
{
    const struct job *job = request->job;
    for (int o = 0; o < OPTIONS; o++) {
        if (request->value[o] && !takes(job, o))
            refuse_foreign(job, o, jobs, count);
        if (job->needs >> o & 1 && !request->value[o])
            fail("%s: %s %s is missing", job->name, options[o].name, value_name(job, o));
    }
    const char *mode = request->value[OPTION_MODE];
    uint64_t bits = 64;
    if (mode && (!read_number(mode, strlen(mode), 64, &bits) || (bits != 32 && bits != 64)))
        fail("--mode %s: give 32 or 64", mode);
}

static int is_help(const char *verb)
{
    return verb && !strcmp(verb, "help");
}

/* Ends the tool where it is asked about itself. */
static void tell(const struct glance *seen, const struct job *jobs, size_t count)
{
    const char *const *verb = seen->operands;
    int asks_help = seen->has[OPTION_HELP] || is_help(*verb);
    if (!asks_help && !seen->has[OPTION_VERSION])
        return;
    if (is_help(*verb) && verb[2])
        fail("help takes only one VERB; %s is one too many", verb[2]);
    if (is_help(*verb))
        verb++;
    if (!asks_help)
        print_version();
    else if (*verb && !is_help(*verb))
        print_verb_help(job_named(*verb, jobs, count));
    else
        print_help(jobs, count);
    exit(STATUS_DONE);
}

struct request read_request(char **words, const struct job *jobs, size_t count)
{
    struct request request = {NULL, NULL, {NULL}};
    struct words line = {words, 0};
    struct glance seen = look_over(words);
    if (seen.has[OPTION_JSON])
        fail_in_json(is_help(seen.operands[0]) ? NULL : seen.operands[1]);
    tell(&seen, jobs, count);
    if (seen.is_for_output)
        answer_on(stderr);
    for (struct word word = next_word(&line); word.text; word = next_word(&line)) {
        if (word.option == NO_OPTION)
            take_operand(&request, word.text, jobs, count);
        else
            take_option(&request, &word);
    }
    if (!request.job)
        fail("the verb is missing; 'runnelpin --help' lists the verbs");
    if (!request.operand)
        fail("%s: %s is missing", request.job->name, request.job->operand);
    check_options(&request, jobs, count);
    return request;
}

uint64_t option_number(const struct request *request, enum option option, uint64_t otherwise)
{
    const char *text = request->value[option];
    uint64_t value = otherwise;
    if (text && !read_number(text, strlen(text), UINT64_MAX, &value))
        fail("%s: %s is not a 64-bit number (decimal, or hexadecimal after 0x)", options[option].name, text);
    return value;
}
