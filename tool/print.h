/* Where the answer is printed, and how a line is: nothing that a name holds reaches a terminal as a command. */
#ifndef PRINT_H
#define PRINT_H

#include <stdio.h>

/* Standard output, but for a result that goes there itself. */
FILE *answers(void);

/* From now on the answer goes here. */
void answer_on(FILE *stream);

/* What is a control character or no UTF-8 becomes a question mark. */
void make_printable(char *line);

/* Prints a line that is made printable first. */
void print_line(FILE *stream, const char *before, char *line);

/* Flushes the answer; one that can't be written ends the tool. */
void end_answer(void);

/* Whichever way the tool ends: it has failed if what it printed on standard output is lost. */
void end_answer_at_exit(void);

#endif
