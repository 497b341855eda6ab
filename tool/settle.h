/* The files that a command line names. */
#ifndef SETTLE_H
#define SETTLE_H

#include "args.h"

/*
 * Gives `-` its name, in JSON too, and ends the tool where one file is given for two things that it can't be, or none
 * for what has to be written.
 */
void settle_files(struct request *request);

#endif
