/* The header that the security chip has approved. Here it comes on the command line, apart from the image. */
#ifndef APPROVED_H
#define APPROVED_H

#include "boot.h"

/* The bytes of the word header=HEX; none where the word is missing, is not hexadecimal or is too long. */
struct slice approved_header(const char *command_line);

#endif
