/* Files, by the names that a command line has for them. */
#ifndef FILES_H
#define FILES_H

#include "bytes.h"

#include <sys/stat.h>
#include <sys/types.h>

/* What `-` is called from here on. A path is one of these by its address: a file may have such a name, too. */
extern const char standard_input[], standard_output[];

/* Holds descriptors 0 to 2 where they are closed, so that no file takes their place; using one is an error still. */
void hold_standard_files(void);

/* Whether both are of the same file, pipe, socket or device, whatever it is called. */
int is_one_file(const struct stat *one, const struct stat *other);

/* Writes up to `length` bytes, and waits for a file that others have set not to wait; -1 where it can't be written. */
ssize_t write_some(int file, const uint8_t *at, size_t length);

/*
 * The bytes of a file, pipe or device. One longer than `most` gives `most` + 1 bytes: they begin with its own, at
 * least 1 MiB of them, and the rest may be zeros. Files are read and never mapped: a mapped one could change
 * between the proof of a block and its use.
 */
struct bytes read_file(const char *path, uint64_t most);

/*
 * The length of a file, `most` + 1 where it is longer. Its bytes are put into the room if there is one and they
 * fill it; where a regular file's size tells that they don't, or there is none, it isn't read.
 */
uint64_t read_into(struct bytes room, const char *path, uint64_t most);

#endif
