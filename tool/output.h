/* Where the result goes. There is one way of writing: beside a file, renamed at the end, and to all else directly. */
#ifndef OUTPUT_H
#define OUTPUT_H

#include "bytes.h"

/*
 * Finds out what the target is. Where it is what standard output is, the result goes to that descriptor, and the
 * answer to standard error from now on.
 */
void begin_output(const char *path);

/* Whether the result goes to standard error: then nothing else may. */
int is_on_standard_error(void);

/*
 * Zeros, for a result of so many bytes. Where a file is made they are pages of it, so that memory isn't needed
 * twice, and what isn't touched is a hole.
 */
struct bytes output_room(uint64_t length);

/* Writes the result, which may be in the room from its first byte on. */
void write_output(struct bytes content);

/* There is no result: what was made for it goes. */
void drop_output(void);

#endif
