#include "boot.h"

#include "little.h"
#include "map.h"

struct runnelpin_answer boot_load(const struct unit *unit, struct slice image, struct slice header)
{
    static struct runnelpin_answer answer; /* off the stack, which may be small */

    /* The code is returned too, but only the record says where a refused load stopped. */
    (void)runnelpin_load(image.at, image.length, header.at, header.length, unit->map.at, unit->map.length,
                         unit->cpuid.at, unit->cpuid.length, unit->mode, unit->signature_length, unit->memory,
                         unit->memory_length, (uint8_t *)&answer, sizeof answer);
    return answer;
}

struct slice boot_cpuid(struct cpuid_table *table)
{
    read_cpuid(table);
    return (struct slice){ (const uint8_t *)table->records, table->count * RECORD_BYTES };
}

int boot_is_ram(struct slice map, uint64_t address)
{
    for (size_t at = 0; at < map.length; at += REGION_BYTES)
        if (address - little(map.at + at, 8) < little(map.at + at + 8, 8))
            return 1;
    return 0;
}
