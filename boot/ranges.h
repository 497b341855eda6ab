/* The machine's memory as its boot loader tells it, and the map that is made of it. */
#ifndef RANGES_H
#define RANGES_H

#include "map.h"

#include <stddef.h>
#include <stdint.h>

enum { MOST_RANGES = 128 };

/* What the loader names, and what must not be lent: in any order, and they may overlap. */
struct range {
    uint64_t base, end;
    int usable;
};

struct ranges {
    struct range at[MOST_RANGES];
    size_t count;
    int overflowed; /* there were more, and none may be overlooked */
};

/* Adds `length` bytes from `base` on, as far as the loader's addresses reach. */
void add_range(struct ranges *ranges, uint64_t base, uint64_t length, int usable);

/* Whether all pages with these bytes are usable, and in no other range. */
int is_all_usable(const struct ranges *ranges, uint64_t base, uint64_t length);

/* The map, and how much RAM is left out of it. */
struct regions {
    uint64_t map[MOST_REGIONS][2]; /* base and length, as the loader reads them */
    size_t count;
    uint64_t length;                  /* of all together */
    uint64_t left_out, left_out_from; /* bytes, and the first one's address */
};

/*
 * The whole pages that are usable and in no other range, ascending. Left out is what is over MOST_REGIONS, over
 * the lending limit or past the identity mapping.
 */
void find_regions(const struct ranges *ranges, struct regions *regions);

#endif
