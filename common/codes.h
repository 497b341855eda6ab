/* What each code means. Nothing is read from the order of the numbers: whoever wants to know looks here. */
#ifndef CODES_H
#define CODES_H

#include <stdint.h>

/* What the place of an answer counts. Where it counts nothing it is 0. */
enum place_kind { NO_PLACE, BLOCK_NUMBER, FILE_OFFSET, FILE_LENGTH };

/* Whether memory, or the output, may have been written to when a call gives the code. */
enum effect { UNCHANGED, MAY_CHANGE };

/* The calls that give a code, as bits. */
enum { BY_LOAD = 1, BY_RUN = 2, BY_OPEN = 4, BY_PACK = 8 };

struct code {
    uint8_t calls, place_kind, effect;
    const char *name, *meaning;
};

/* NULL for a number that is no code. */
const struct code *code_of(uint64_t number);

#endif
