/* How far an image is good, also a damaged one. */
#ifndef SURVEY_H
#define SURVEY_H

#include "image.h"

struct survey {
    uint64_t blocks;              /* that the header counts */
    uint64_t whole, proved;       /* of these, from the first on */
    struct runnelpin_answer stop; /* what opening stopped at, where a block is refused */
    struct stream file;           /* its bytes in the proved blocks are known */
};

/* Surveys the blocks of an image that is refused for nothing but its length, 12, if at all. */
struct survey survey_blocks(struct bytes image);

#endif
