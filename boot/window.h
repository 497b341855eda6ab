/* Lent memory over a map with holes: the regions' pages mapped one behind the other. */
#ifndef WINDOW_H
#define WINDOW_H

#include "ranges.h"

/* Maps the window over the regions, and gives its first byte. */
uint8_t *open_window(const struct regions *regions);

/* Takes it away again. What stands in the regions stays, at its physical addresses. */
void drop_window(void);

#endif
