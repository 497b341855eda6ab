/* A new file that isn't finished yet goes when the tool ends, whether by itself or by a signal. */
#ifndef ENDINGS_H
#define ENDINGS_H

/* Makes the file, by a pattern as mkstemp takes it, and gives its descriptor, or -1. */
int make_unfinished(char *pattern);

/* The file stays, under whichever name it has now. */
void keep_finished(void);

void remove_unfinished(void);

#endif
