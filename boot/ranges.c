#include "ranges.h"

#include "layout.h"

static uint64_t least(uint64_t a, uint64_t b)
{
    return a < b ? a : b;
}

static uint64_t page_down(uint64_t address)
{
    return address & ~(uint64_t)(PAGE - 1);
}

static uint64_t page_up(uint64_t address)
{
    return page_down(address + PAGE - 1);
}

void add_range(struct ranges *ranges, uint64_t base, uint64_t length, int usable)
{
    struct range *range = &ranges->at[ranges->count];
    if (ranges->count == MOST_RANGES) {
        ranges->overflowed = 1;
        return;
    }
    /* No region may end above this, and no address wraps. */
    base = least(base, MOST_END);
    length = least(length, MOST_END - base);
    /* Whole pages: of RAM those that it fills, of anything else those that it touches. */
    range->base = usable ? page_up(base) : page_down(base);
    range->end = usable ? page_down(base + length) : page_up(base + length);
    range->usable = usable;
    if (length && range->base < range->end)
        ranges->count++;
}

/* The usable range that is met first from an address on, cut to what lies from there on; empty where there is none. */
static struct range next_usable(const struct ranges *ranges, uint64_t from)
{
    struct range next = { MOST_END, MOST_END, 0 };
    for (size_t i = 0; i < ranges->count; i++) {
        struct range range = ranges->at[i];
        if (!range.usable || range.end <= from)
            continue;
        if (range.base < from)
            range.base = from;
        if (range.base < next.base)
            next = range;
    }
    return next;
}

/* The end of a range that covers this address but is no RAM, or the address itself. */
static uint64_t behind(const struct ranges *ranges, uint64_t address)
{
    for (size_t i = 0; i < ranges->count; i++) {
        const struct range *other = &ranges->at[i];
        if (!other->usable && other->base <= address && address < other->end)
            return other->end;
    }
    return address;
}

/* Where the first range that is no RAM begins between two addresses, or the second of them. */
static uint64_t up_to(const struct ranges *ranges, uint64_t base, uint64_t end)
{
    for (size_t i = 0; i < ranges->count; i++) {
        const struct range *other = &ranges->at[i];
        if (!other->usable && other->base > base && other->base < end)
            end = other->base;
    }
    return end;
}

int is_all_usable(const struct ranges *ranges, uint64_t base, uint64_t length)
{
    uint64_t end = base + length;

    base = page_down(base);
    while (base < end) {
        struct range next = next_usable(ranges, base);
        if (next.base != base || behind(ranges, base) != base)
            return 0;
        base = up_to(ranges, base, next.end);
    }
    return 1;
}

static void leave_out(struct regions *regions, uint64_t base, uint64_t end)
{
    if (base >= end)
        return;
    if (!regions->left_out)
        regions->left_out_from = base;
    regions->left_out += end - base;
}

/* Lends what may be lent of a free run of pages: a touching one makes the region before it longer. */
static void lend(struct regions *regions, uint64_t base, uint64_t end)
{
    uint64_t most = least(IDENTITY_LIMIT, base + (LENDING_LIMIT - regions->length));
    uint64_t lent = least(end, most);
    uint64_t *last = regions->count ? regions->map[regions->count - 1] : 0;
    int touches = last && last[0] + last[1] == base;

    if (lent <= base || (!touches && regions->count == MOST_REGIONS)) {
        leave_out(regions, base, end);
        return;
    }
    if (!touches) {
        last = regions->map[regions->count++];
        last[0] = base;
        last[1] = 0;
    }
    last[1] += lent - base;
    regions->length += lent - base;
    leave_out(regions, lent, end);
}

void find_regions(const struct ranges *ranges, struct regions *regions)
{
    uint64_t from = 0;

    *regions = (struct regions){ .count = 0 };
    while (from < MOST_END) {
        struct range next = next_usable(ranges, from);
        from = behind(ranges, next.base);
        if (from != next.base)
            continue;
        from = up_to(ranges, next.base, next.end);
        lend(regions, next.base, from);
    }
}
