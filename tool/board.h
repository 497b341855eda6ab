/* The map and the table that commands run on, and what is wrong with them in words. */
#ifndef BOARD_H
#define BOARD_H

#include "lists.h"
#include "map.h"
#include "text.h"

struct board {
    struct list map, table;
    struct bytes memory;
    uint64_t mode;
};

/* The bytes of all regions together; says the first rule that the map breaks, and then gives 0. */
uint64_t map_total(struct list map, struct text *fault);

/* The first address from this one on that is in no region of a sound map. */
uint64_t first_outside(struct list map, uint64_t address);

/* Says the first rule that the table breaks. */
void say_table_fault(struct text *fault, struct list table);

/* The four results of the record with both inputs, NULL where there is none. */
const uint8_t *table_results(struct list table, uint64_t eax, uint64_t ecx);

/* The addresses that a mode reaches are those below this. */
uint64_t reach_limit(uint64_t mode);

#endif
