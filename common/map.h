/* What the library takes of a memory map. Read by C and by assembly. */
#ifndef MAP_H
#define MAP_H

#define MOST_REGIONS 16
#define REGION_BYTES 16           /* base and length */
#define MOST_END 0x10000000000000 /* 2^52: no region ends above it */
#define MOST_MEMORY 0x100000000   /* 2^32: the bytes of all regions together */

#endif
