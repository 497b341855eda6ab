#include "board.h"

#include "cpuid.h"

#include <inttypes.h>

struct region {
    uint64_t base, length;
};

static struct region region_of(struct list map, size_t i)
{
    const uint8_t *at = map.at + i * REGION_BYTES;
    return (struct region){little(at, 8), little(at + 8, 8)};
}

/* Where a record stands: the file and the line in it. */
static void say_record(struct text *text, struct list list, size_t record)
{
    say(text, "%s, %s %zu: ", list.path, list.lines ? "line" : "record", list.lines ? list.lines[record] : record + 1);
}

/* Says what is wrong with region i behind one that ends at `end`; whether anything is. */
static int say_region_fault(struct text *fault, struct list map, size_t i, uint64_t end)
{
    struct region r = region_of(map, i);
    int ends_high = r.base > MOST_END || r.length > MOST_END - r.base;
    if (r.length && r.base >= end && !ends_high)
        return 0;
    say_record(fault, map, i);
    say(fault, "the region 0x%" PRIx64 " 0x%" PRIx64, r.base, r.length);
    if (!r.length)
        say(fault, " has length 0");
    else if (r.base < end)
        say(fault, " begins below 0x%" PRIx64 ", where the one before it ends", end);
    else
        say(fault, " ends above 2^52");
    return 1;
}

static int say_count_fault(struct text *fault, struct list map, size_t regions)
{
    if (regions && regions <= MOST_REGIONS)
        return 0;
    if (regions)
        say(fault, "%s has %zu regions, but at most %d are allowed", map.path, regions, MOST_REGIONS);
    else
        say(fault, "%s has no regions, but needs at least one", map.path);
    return 1;
}

uint64_t map_total(struct list map, struct text *fault)
{
    size_t regions = map.length / REGION_BYTES;
    uint64_t end = 0, total = 0;
    if (say_count_fault(fault, map, regions))
        return 0;
    for (size_t i = 0; i < regions; i++) {
        if (say_region_fault(fault, map, i, end))
            return 0;
        struct region r = region_of(map, i);
        end = r.base + r.length;
        total += r.length;
    }
    if (total <= MOST_MEMORY)
        return total;
    say(fault, "the regions of %s have %" PRIu64 " bytes together, over the limit of 2^32", map.path, total);
    return 0;
}

uint64_t first_outside(struct list map, uint64_t address)
{
    for (size_t i = 0; i < map.length / REGION_BYTES; i++) {
        struct region r = region_of(map, i);
        if (address >= r.base && address - r.base < r.length)
            address = r.base + r.length;
    }
    return address;
}

/* Both inputs as one number, by which the records ascend. */
static uint64_t inputs(struct list table, size_t record)
{
    const uint8_t *at = table.at + record * RECORD_BYTES;
    return little(at, 4) << 32 | little(at + 4, 4);
}

static void say_inputs(struct text *text, struct list table, size_t record)
{
    say(text, "EAX 0x%" PRIx64 ", ECX 0x%" PRIx64, inputs(table, record) >> 32, inputs(table, record) & UINT32_MAX);
}

void say_table_fault(struct text *fault, struct list table)
{
    size_t records = table.length / RECORD_BYTES, i = 1;
    if (records > MOST_RECORDS) {
        say(fault, "%s has %zu records, but at most %d are allowed", table.path, records, MOST_RECORDS);
        return;
    }
    while (i < records && inputs(table, i - 1) < inputs(table, i))
        i++;
    if (i >= records)
        return;
    say_record(fault, table, i);
    say(fault, "the inputs ");
    say_inputs(fault, table, i);
    say(fault, " must be above those of the record before, ");
    say_inputs(fault, table, i - 1);
}

const uint8_t *table_results(struct list table, uint64_t eax, uint64_t ecx)
{
    for (size_t i = 0; i < table.length / RECORD_BYTES; i++)
        if (inputs(table, i) == (eax << 32 | ecx))
            return table.at + i * RECORD_BYTES + 8;
    return NULL;
}

uint64_t reach_limit(uint64_t mode)
{
    return (uint64_t)1 << (mode == 32 ? 32 : 52);
}
