/* Where things are in the stub's address space. Read by C and by assembly. */
#ifndef LAYOUT_H
#define LAYOUT_H

#include "map.h"

#define PAGE 0x1000

/* Physical memory stands at its own addresses up to here, in pages of 2 MiB: 16 directories. */
#define IDENTITY_LIMIT 0x400000000
#define LARGE_PAGE 0x200000

/* The window: the lent regions one behind the other. Its slot of the top table is its own. */
#define WINDOW_SLOT 1
#define WINDOW_BASE 0x8000000000

/* The most that is lent: whole page tables, of 2 MiB each, and no more than the loader takes. */
#ifndef LENDING_LIMIT
#define LENDING_LIMIT MOST_MEMORY
#endif
#if LENDING_LIMIT % LARGE_PAGE || LENDING_LIMIT < LARGE_PAGE || LENDING_LIMIT > MOST_MEMORY
#error "LENDING_LIMIT: a multiple of 2 MiB, and at most 4 GiB"
#endif

/* Bits of a page table's entry. */
#define PRESENT 1
#define WRITABLE 2
#define LARGE 0x80

#define STACK_BYTES 0x4000

#endif
