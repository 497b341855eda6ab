/* Entries that lead nowhere, which the library does not refuse: what is there may have been there before. */
#ifndef ENTRY_H
#define ENTRY_H

#include "report.h"

/* Says in a note where the entry of a done call is in no region of the map. */
void note_entry(struct report *report);

/* Says in a note where no command stores a byte at the entry: all that can be seen without a map. */
void note_bare_entry(struct report *report, const struct stream *file);

#endif
