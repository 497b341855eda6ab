/* The library's answers, put in words. */
#ifndef ANSWER_H
#define ANSWER_H

#include "args.h"
#include "board.h"
#include "command.h"
#include "image.h"

/* What pack is asked for. */
struct packing {
    struct bytes file;
    uint64_t ids[HASHES], block_size, signature_length;
};

/* What a call was given, and what it answered. */
struct call {
    const struct request *request; /* which file is which, and which options are given */
    struct bytes image, header;    /* `image` is the file where there is none around it */
    int is_image;
    int is_shown; /* only looked at: nothing is run */
    uint64_t signature_length;
    const struct packing *packing; /* NULL but for pack */
    struct board board;
    struct runnelpin_answer answer;
};

/* A call that was given nothing yet; what it doesn't take stays so. */
struct call new_call(const struct request *request);

/* Whether a refusal is of the file that the verb is given. One of map or table names its own file. */
int is_of_operand(const struct call *call);

/* A refusal: its number, its one cause, its place, the command there and its address. */
void say_refusal(struct text *text, const struct call *call);

/* The commands that a call runs. */
struct stream commands_of(const struct call *call);

/* The command that was refused, as far as it was judged. Of one that the file has no whole header of, nothing. */
struct command refused_command(const struct call *call);

#endif
