/* What several verbs do alike: reading what a call is given, writing what it gave. */
#ifndef TAKING_H
#define TAKING_H

#include "report.h"

extern const char not_approved[];

/* The image, the approved header, and the signature length: a note says where it is the header's own. */
void take_image(struct report *report);

/* Writes the output that is asked for, where the job is done or where part of it is wanted on a refusal. */
void give_output(struct report *report, struct bytes output);

#endif
