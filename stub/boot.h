/* The part of a boot stub that calls the loader: no heap, no libc, nothing but static buffers. */
#ifndef BOOT_H
#define BOOT_H

#include <stddef.h>
#include <stdint.h>

#include "cpuid.h"
#include "runnelpin.h"

struct slice {
    const uint8_t *at;
    size_t length;
};

/* What a unit lends to every load. */
struct unit {
    struct slice map;
    struct slice cpuid;
    uint64_t mode;
    uint64_t signature_length;
    uint8_t *memory; /* the map's regions one behind the other */
    size_t memory_length;
};

/* Loads an image under the header that the security chip has approved. */
struct runnelpin_answer boot_load(const struct unit *unit, struct slice image, struct slice header);

/* The CPUID table, read from the processor. */
struct slice boot_cpuid(struct cpuid_table *table);

/* Whether a region of the map has this address: an entry need not have one, but nothing was loaded elsewhere. */
int boot_is_ram(struct slice map, uint64_t address);

/* Starts what was loaded: the entry becomes the instruction pointer, every other register is zero. */
void boot_hand_off(uint64_t entry) __attribute__((noreturn));

#endif
