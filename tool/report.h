/* What the tool says at the end of a job. */
#ifndef REPORT_H
#define REPORT_H

#include "answer.h"
#include "args.h"

struct report {
    const struct request *request;
    struct call call;
    struct text words;
    struct text **notes;
    size_t notes_made;
};

struct report new_report(const struct request *request);

/* A new note, to be said. */
struct text *note(struct report *report);

/* Prints answer, words and notes, and gives the exit status. On a refusal the words are the tool's own. */
int finish(struct report *report);

#endif
