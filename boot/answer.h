/* The answer to a load, in words. */
#ifndef ANSWER_H
#define ANSWER_H

#include "boot.h"

/* The record, and the command that a refused load stopped at; of the image it reads proved bytes only. */
void say_answer(struct runnelpin_answer answer, struct slice image);

#endif
