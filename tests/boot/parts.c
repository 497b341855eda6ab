/* The parts of the boot stub that no emulated machine leads into every corner: run on the machine that builds. */
#include "approved.h"
#include "handed.h"
#include "layout.h"
#include "status.h"

#include <stdio.h>
#include <string.h>

static int failed;

static void is(const char *what, uint64_t found, uint64_t wanted)
{
    if (found == wanted)
        return;
    printf("%s: 0x%llx, and not 0x%llx\n", what, (unsigned long long)found, (unsigned long long)wanted);
    failed = 1;
}

/* Base, length and whether it is usable, one behind the other; then what the regions must be, base and end. */
struct map_case {
    const char *what;
    uint64_t ranges[6][3];
    size_t range_count;
    uint64_t regions[4][2];
    size_t region_count;
    uint64_t left_out, left_out_from;
};

#define GIB 0x40000000ull

static const struct map_case map_cases[] = {
    { "a machine", { { 0, 0x9fc00, 1 }, { 0x9fc00, 0x400, 0 }, { 0x100000, 0x3ee0000, 1 }, { 0, 0x1000, 0 },
                     { 0x100000, 0x822000, 0 }, { 0x3fd7123, 0x1000, 0 } }, 6,
      { { 0x1000, 0x9f000 }, { 0x922000, 0x3fd7000 }, { 0x3fd9000, 0x3fe0000 } }, 3, 0, 0 },
    { "no order, and overlaps", { { 0x8000, 0x4000, 1 }, { 0x9000, 1, 0 }, { 0x1000, 0x3000, 1 }, { 0x3000, 0x6000, 1 },
                                  { 0x2fff, 2, 0 } }, 5,
      { { 0x1000, 0x2000 }, { 0x4000, 0x9000 }, { 0xa000, 0xc000 } }, 3, 0, 0 },
    { "touching ranges", { { 0x1000, 0x1000, 1 }, { 0x2000, 0x1000, 1 } }, 2, { { 0x1000, 0x3000 } }, 1, 0, 0 },
    { "less than a page", { { 0x1001, 0x1ffe, 1 }, { 0x8000, 0xfff, 1 } }, 2, { { 0, 0 } }, 0, 0, 0 },
    { "a page and its neighbours' bytes", { { 0x1fff, 0x1002, 1 } }, 1, { { 0x2000, 0x3000 } }, 1, 0, 0 },
    { "over the lending limit", { { 0x1000, 0x1000, 1 }, { GIB, 4 * GIB, 1 }, { 6 * GIB, GIB, 1 } }, 3,
      { { 0x1000, 0x2000 }, { GIB, 5 * GIB - 0x1000 } }, 2, GIB + 0x1000, 5 * GIB - 0x1000 },
    { "past the identity mapping", { { 16 * GIB - 0x1000, 0x3000, 1 }, { 20 * GIB, 0x1000, 1 } }, 2,
      { { 16 * GIB - 0x1000, 16 * GIB } }, 1, 0x3000, 16 * GIB },
    { "an empty range", { { 0x1000, 0x3000, 1 }, { 0x2800, 0, 0 } }, 2, { { 0x1000, 0x4000 } }, 1, 0, 0 },
    { "lengths that wrap", { { 0x1000, 0x4000, 1 }, { 0x3000, UINT64_MAX, 0 }, { UINT64_MAX - 1, UINT64_MAX, 1 } }, 3,
      { { 0x1000, 0x3000 } }, 1, 0, 0 },
};

static void try_map(const struct map_case *c)
{
    static struct ranges ranges;
    static struct regions regions;

    ranges = (struct ranges){ .count = 0 };
    for (size_t i = 0; i < c->range_count; i++)
        add_range(&ranges, c->ranges[i][0], c->ranges[i][1], (int)c->ranges[i][2]);
    find_regions(&ranges, &regions);
    is(c->what, regions.count, c->region_count);
    uint64_t length = 0;
    for (size_t i = 0; i < c->region_count; i++) {
        is(c->what, regions.map[i][0], c->regions[i][0]);
        is(c->what, regions.map[i][0] + regions.map[i][1], c->regions[i][1]);
        length += c->regions[i][1] - c->regions[i][0];
    }
    is(c->what, regions.length, length);
    is(c->what, regions.left_out, c->left_out);
    is(c->what, regions.left_out_from, c->left_out_from);
}

/* Usable is from 0x1000 to 0x9000, but for the page at 0x6000. */
static void try_usable(void)
{
    static struct ranges ranges;

    add_range(&ranges, 0x4000, 0x5000, 1);
    add_range(&ranges, 0x1000, 0x4000, 1);
    add_range(&ranges, 0x6800, 1, 0);
    is("usable over two ranges", (uint64_t)is_all_usable(&ranges, 0x1000, 0x5000), 1);
    is("usable up to the end", (uint64_t)is_all_usable(&ranges, 0x7000, 0x2000), 1);
    is("usable, and a page before", (uint64_t)is_all_usable(&ranges, 0, 0x2000), 0);
    is("usable, and a page behind", (uint64_t)is_all_usable(&ranges, 0x8000, 0x2000), 0);
    is("usable, and not at first", (uint64_t)is_all_usable(&ranges, 0x6000, 0x2000), 0);
    is("usable, and in parts of pages", (uint64_t)is_all_usable(&ranges, 0x5fff, 1), 1);
    is("usable but for a page's part", (uint64_t)is_all_usable(&ranges, 0x5fff, 2), 0);
    is("usable, behind a page's part", (uint64_t)is_all_usable(&ranges, 0x6fff, 2), 0);
    is("usable, and not at last", (uint64_t)is_all_usable(&ranges, 0x5000, 0x2000), 0);
}

static void try_many(void)
{
    static struct ranges ranges;
    static struct regions regions;

    for (uint64_t i = 0; i < 20; i++)
        add_range(&ranges, 0x10000 * i, 0x2000, 1);
    find_regions(&ranges, &regions);
    is("20 regions", regions.count, 16);
    is("20 regions: the last", regions.map[15][0], 0xf0000);
    is("20 regions: lent", regions.length, 0x20000);
    is("20 regions: left out", regions.left_out, 0x8000);
    is("20 regions: left out from", regions.left_out_from, 0x100000);
    for (uint64_t i = 20; i < 128; i++)
        add_range(&ranges, 0x10000 * i, 0x2000, 1);
    is("128 ranges", (uint64_t)ranges.overflowed, 0);
    add_range(&ranges, 0, 1, 0);
    is("129 ranges", (uint64_t)ranges.overflowed, 1);
}

static void try_approved(void)
{
    static char line[1100];
    static const char *bad[] = { "", "header", "header=", "header=0", "header=12x", "Header=12", "noheader=12",
                                 "header=1G", "a=header=12", "header=AB" };
    struct slice header = approved_header("quiet  header=00ff7a more");

    is("a header", header.length, 3);
    is("a header's bytes", (uint64_t)memcmp(header.at, "\0\xff\x7a", 3), 0);
    for (size_t i = 0; i < sizeof bad / sizeof *bad; i++)
        is(bad[i], approved_header(bad[i]).length, 0);
    memset(line, '1', sizeof line - 1);
    memcpy(line, "header=", 7);
    line[7 + 1024] = 0;
    is("512 bytes", approved_header(line).length, 512);
    line[7 + 1024] = '1';
    line[7 + 1026] = 0;
    is("513 bytes", approved_header(line).length, 0);
}

/* Both loaders hand over this map, module and line. */
static void is_taken(const char *what, const struct handed *handed, int number)
{
    is(what, (uint64_t)number, 0);
    is(what, handed->ranges.count, 2);
    is(what, handed->ranges.at[0].end, 0x9f000);
    is(what, (uint64_t)handed->ranges.at[0].usable, 1);
    is(what, handed->ranges.at[1].base, 0xf0000);
    is(what, (uint64_t)handed->ranges.at[1].usable, 0);
    is(what, (uint64_t)(uintptr_t)handed->image.at, 0x900000);
    is(what, handed->image.length, 0x1234);
    is(what, (uint64_t)strcmp(handed->command_line, "one two"), 0);
}

static void try_multiboot2(void)
{
    static struct handed handed, none;
    static const uint32_t info[] __attribute__((aligned(8))) = {
        144, 0,                                                   /* all of it */
        1, 16, 0x20656e6f, 0x006f7774,                            /* command line */
        3, 17, 0x900000, 0x901234, 'm', 0,                        /* module, and padding */
        4, 16, 640, 64512,                                        /* not read */
        6, 64, 24, 0,                                             /* memory map */
        0, 0, 0x9fc00, 0, 1, 0, 0xf0000, 0, 0x10000, 0, 2, 0,     /* its entries */
        0, 8,
    };
    static const uint32_t without[] __attribute__((aligned(8))) = { 16, 0, 0, 8 };

    is_taken("multiboot2", &handed, take_handed(0x36d76289, (uint64_t)(uintptr_t)info, &handed));
    is("multiboot2 without a map", (uint64_t)take_handed(0x36d76289, (uint64_t)(uintptr_t)without, &none),
       END_PROTOCOL);
}

static void try_pvh(void)
{
    static struct handed handed, other;
    static const char line[] = "one two";
    static const uint64_t module[4] = { 0x900000, 0x1234, 0, 0 };
    static const uint64_t ranges[129][3] = { { 0, 0x9fc00, 1 }, { 0xf0000, 0x10000, 2 } };
    static uint64_t many[129][3];
    uint64_t info[7] = { 0x336ec578 | 1ull << 32, 1ull << 32, (uintptr_t)module, (uintptr_t)line, 0,
                         (uintptr_t)ranges, 2 };
    uint64_t at = (uint64_t)(uintptr_t)info;

    is_taken("PVH", &handed, take_handed(0, at, &handed));
    info[6] = 0;
    is("PVH with an empty map", (uint64_t)take_handed(0, at, &other), END_PROTOCOL);
    for (size_t i = 0; i < 129; i++)
        many[i][1] = 0x1000;
    info[5] = (uintptr_t)many;
    info[6] = 129;
    is("PVH with 129 ranges", (uint64_t)take_handed(0, at, &other), END_RANGES);
    info[0] = 0x336ec578;
    is("PVH before the memory map", (uint64_t)take_handed(0, at, &other), END_PROTOCOL);
    info[0] = 0x336ec579 | 1ull << 32;
    is("another magic", (uint64_t)take_handed(0, at, &other), END_PROTOCOL);
}

int main(void)
{
    for (size_t i = 0; i < sizeof map_cases / sizeof *map_cases; i++)
        try_map(&map_cases[i]);
    try_usable();
    try_many();
    try_approved();
    try_multiboot2();
    try_pvh();
    return failed;
}
