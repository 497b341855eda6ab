/* What the boot loader hands over, copied out of memory that may be lent. */
#ifndef HANDED_H
#define HANDED_H

#include "boot.h"
#include "ranges.h"

enum { COMMAND_LINE_BYTES = 2048 };

struct handed {
    const char *by;       /* the protocol's name */
    struct ranges ranges; /* the memory map */
    struct slice image;   /* the boot module, where it lies; the last one where there are several */
    char command_line[COMMAND_LINE_BYTES];
};

/* Reads what a loader of this magic left at `info`; 0, or the number of status.h that says why not. */
int take_handed(uint32_t magic, uint64_t info, struct handed *handed);

#endif
