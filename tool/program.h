/* A command of a program, as it is listed. */
#ifndef PROGRAM_H
#define PROGRAM_H

#include "command.h"

/* In text a line with its offset; in JSON an object. */
void list_command(const struct command *command);

#endif
