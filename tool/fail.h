/* How the tool ends. */
#ifndef FAIL_H
#define FAIL_H

enum status { STATUS_DONE = 0, STATUS_REFUSED = 1, STATUS_BAD = 2 };

/* One line on standard error, whatever characters a file's name has: those that don't print are a question mark. */
void complain(const char *format, ...) __attribute__((format(printf, 1, 2)));

/* From now on fail() says it in a JSON object too, of the file that the tool was given; NULL where there is none. */
void fail_in_json(const char *file);

/* Complains of the usage or of a file, and ends the tool with STATUS_BAD. */
void fail(const char *format, ...) __attribute__((format(printf, 1, 2), noreturn));

#endif
