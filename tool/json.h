/* The answer in JSON. */
#ifndef JSON_H
#define JSON_H

#include "text.h"

/* The brackets of an object or array; `key` is NULL in an array and for the outermost. */
void json_open(const char *key, char bracket);
void json_close(char bracket);

/* How many brackets are open. */
int json_depth(void);

void json_null(const char *key);

/* A number over 2^53 is written as a string, since readers that use floating point would round it. */
void json_number(const char *key, uint64_t value);

/* What is no UTF-8 is written as U+FFFD. */
void json_text(const char *key, const struct text *text);

void json_truth(const char *key, int is_true);

/* The outermost object begins with this file's name. */
void json_begin_with(const char *file);

#endif
