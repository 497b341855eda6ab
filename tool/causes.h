/* Why a call was refused: of all that a code stands for, the one that applies. */
#ifndef CAUSES_H
#define CAUSES_H

#include "answer.h"

/* Says the cause, with the values in question and what to do; gives 0 where the code's meaning is all there is. */
int say_cause(struct text *text, const struct call *call);

/* The causes that lie in the header, 5 to 12, and in a command, 16 to 27. */
typedef void cause(struct text *text, const struct call *call);

cause *header_cause(uint64_t code);
cause *command_cause(uint64_t code);

#endif
