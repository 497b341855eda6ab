#include "window.h"

#include "layout.h"

enum { ENTRIES = PAGE / 8 };
#define PAGES (LENDING_LIMIT / PAGE)
#define TABLES (PAGES / ENTRIES)
#define DIRECTORIES ((TABLES + ENTRIES - 1) / ENTRIES)
#define IN_USE (PRESENT | WRITABLE)

/*
 * The tables of the whole window, one behind the other, so that the n-th lent page has the n-th entry. Regions are
 * whole pages and together at most LENDING_LIMIT: there is an entry for each, and nothing to run out of.
 */
static uint64_t pages[PAGES] __attribute__((aligned(PAGE)));
static uint64_t directories[DIRECTORIES * ENTRIES] __attribute__((aligned(PAGE)));
static uint64_t pointers[ENTRIES] __attribute__((aligned(PAGE)));

extern uint64_t top_table[];

/* Physical memory stands at its own addresses, and the stub in it. */
static uint64_t entry_of(const void *table)
{
    return (uint64_t)(uintptr_t)table | IN_USE;
}

/* What the processor remembers of the old tables goes too. */
static void set_window(uint64_t entry)
{
    uint64_t tables = (uint64_t)(uintptr_t)top_table;
    top_table[WINDOW_SLOT] = entry;
    __asm__ volatile("mov %0, %%cr3" : : "r"(tables) : "memory");
}

uint8_t *open_window(const struct regions *regions)
{
    size_t count = 0;
    for (size_t i = 0; i < regions->count; i++) {
        for (uint64_t offset = 0; offset < regions->map[i][1]; offset += PAGE)
            pages[count++] = (regions->map[i][0] + offset) | IN_USE;
    }
    for (size_t i = 0; i < TABLES; i++)
        directories[i] = entry_of(pages + i * ENTRIES);
    for (size_t i = 0; i < DIRECTORIES; i++)
        pointers[i] = entry_of(directories + i * ENTRIES);
    set_window(entry_of(pointers));
    return (uint8_t *)(uintptr_t)WINDOW_BASE;
}

void drop_window(void)
{
    set_window(0);
}
