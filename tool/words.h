/* The words of a command line: which are options, and what belongs to them. */
#ifndef WORDS_H
#define WORDS_H

#include "options.h"

/* What stands for an option in a word that is none, and in one that looks like one. */
enum { NO_OPTION = OPTIONS, UNKNOWN_OPTION };

struct words {
    char **next;
    int are_files; /* behind -- */
};

struct word {
    const char *text; /* NULL behind the last */
    int option;
    const char *value; /* the option's, in the same word or the next; NULL where there is none */
};

/* Takes the next word, and the one behind it where it is the value of an option. Judges nothing. */
struct word next_word(struct words *words);

enum { MOST_OPERANDS = 3 };

/*
 * What counts wherever it stands, whatever else is wrong: the options without a value, whether the result is for
 * standard output, and the first other words.
 */
struct glance {
    int has[OPTIONS], is_for_output;
    const char *operands[MOST_OPERANDS]; /* verb, file, and one too many; NULL where there are fewer */
};

struct glance look_over(char **words);

#endif
