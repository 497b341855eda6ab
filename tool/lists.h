/* The memory map and the CPUID table, which stand in text files: one record of numbers a line. */
#ifndef LISTS_H
#define LISTS_H

#include "bytes.h"

/* Records as the library reads them, and where they were written. */
struct list {
    uint8_t *at;
    size_t length;
    const char *path; /* or what else it comes from */
    size_t *lines;    /* of each record its line in the file; NULL where it stands in none */
};

/* A line that can't be read ends the tool. */
struct list read_map(const char *path);
struct list read_table(const char *path);

#endif
