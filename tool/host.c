#include "host.h"

#include "cpuid.h"

#include <inttypes.h>

struct list host_table(struct text *about)
{
    struct cpuid_table *table = allocate(NULL, sizeof *table);
    read_cpuid(table);
    say(about, "CPUID table of this machine: %zu record%s; left out: " CPUID_LEFT_OUT, table->count,
        plural(table->count));
    if (table->left_out)
        say(about, "; %" PRIu64 " record%s from leaf 0x%" PRIx32 ", sub-leaf %" PRIu32 " on", table->left_out,
            plural(table->left_out), table->leaf, table->sub_leaf);
    return (struct list){(uint8_t *)table->records, table->count * RECORD_BYTES, "this machine's CPUID table", NULL};
}
