/* Named values of the answer, as text or in JSON. */
#ifndef LISTING_H
#define LISTING_H

#include "text.h"

/* Says which, before anything is listed. */
void begin_listing(int in_json);
int is_in_json(void);

/* A part of the listing; `bracket` is the JSON one. */
void open_part(const char *name, char bracket);
void close_part(char bracket);

void list_number(const char *name, uint64_t value);
void list_text(const char *name, const struct text *value);

/* True or false in JSON; in text it is a line with the words for it. */
void list_truth(const char *name, int is_true, const char *words);

#endif
