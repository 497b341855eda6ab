#include "cpuid.h"

enum { MOST_SUB_LEAVES = 64 };

struct result {
    uint32_t eax, ebx, ecx, edx;
};

static struct result cpuid(uint32_t leaf, uint32_t sub_leaf)
{
    struct result r;
    __asm__ volatile("cpuid" : "=a"(r.eax), "=b"(r.ebx), "=c"(r.ecx), "=d"(r.edx) : "a"(leaf), "c"(sub_leaf));
    return r;
}

/* Bit n of the state components that leaf 0xd has sub-leaves for: its first two name them. */
static int has_component(uint32_t n)
{
    struct result user = cpuid(0xd, 0), supervisor = cpuid(0xd, 1);
    uint32_t low = user.eax | supervisor.ecx, high = user.edx | supervisor.edx;
    return (n < 32 ? low : high) >> n % 32 & 1;
}

/* Whether a sub-leaf is there, after the processor makers' manuals. */
static int has_sub_leaf(uint32_t leaf, uint32_t sub_leaf)
{
    if (!sub_leaf)
        return 1;
    switch (leaf) {
    case 4: /* a cache of some kind */
        return (cpuid(leaf, sub_leaf).eax & 31) != 0;
    case 7: /* the first names the last */
        return sub_leaf <= cpuid(leaf, 0).eax;
    case 0xb: /* a level of some kind */
        return (cpuid(leaf, sub_leaf).ecx >> 8 & 255) != 0;
    case 0xd:
        return sub_leaf == 1 || has_component(sub_leaf);
    default:
        return 0;
    }
}

static void add(struct cpuid_table *table, uint32_t leaf, uint32_t sub_leaf)
{
    if (table->count == MOST_RECORDS) {
        if (!table->left_out++) {
            table->leaf = leaf;
            table->sub_leaf = sub_leaf;
        }
        return;
    }
    uint32_t *record = table->records[table->count++];
    struct result r = cpuid(leaf, sub_leaf);
    record[0] = leaf;
    record[1] = sub_leaf;
    record[2] = r.eax;
    record[3] = r.ebx;
    record[4] = r.ecx;
    record[5] = r.edx;
}

/* The leaves from `first` on to the last, which the first one names. */
static void add_leaves(struct cpuid_table *table, uint32_t first)
{
    uint32_t last = cpuid(first, 0).eax;
    for (uint32_t leaf = first; leaf >= first && leaf <= last; leaf++)
        for (uint32_t sub_leaf = 0; sub_leaf < MOST_SUB_LEAVES; sub_leaf++)
            if (has_sub_leaf(leaf, sub_leaf))
                add(table, leaf, sub_leaf);
}

void read_cpuid(struct cpuid_table *table)
{
    table->count = 0;
    table->left_out = 0;
    add_leaves(table, 0);
    add_leaves(table, 0x80000000);
}
