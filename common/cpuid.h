/* The CPUID table of the machine, from the instruction itself. x86-64 only. */
#ifndef CPUID_H
#define CPUID_H

#include <stddef.h>
#include <stdint.h>

enum { MOST_RECORDS = 64, RECORD_WORDS = 6, RECORD_BYTES = 4 * RECORD_WORDS };

/* What the table never has. */
#define CPUID_LEFT_OUT "sub-leaves of leaves other than 0x4, 0x7, 0xb and 0xd; leaves from 0x40000000 to 0x7fffffff"

struct cpuid_table {
    uint32_t records[MOST_RECORDS][RECORD_WORDS]; /* as the library reads them: EAX and ECX inputs, then four results */
    size_t count;
    uint64_t left_out;       /* records that there was no room for */
    uint32_t leaf, sub_leaf; /* the first of these */
};

/* The basic leaves and the extended ones, ascending. */
void read_cpuid(struct cpuid_table *table);

#endif
