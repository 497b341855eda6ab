/* The CPUID table of the machine that the tool runs on. */
#ifndef HOST_H
#define HOST_H

#include "lists.h"
#include "text.h"

/* The records, ascending, as the library reads them; says how many there are and what is left out. */
struct list host_table(struct text *about);

#endif
