/* What the tool tells of itself. */
#ifndef HELP_H
#define HELP_H

#include "args.h"

/* The verbs, a line for each. */
void print_help(const struct job *jobs, size_t count);

/* A verb's usage, its options and an example. */
void print_verb_help(const struct job *job);

void print_version(void);

#endif
