/* How long the work takes: a line on standard error while it goes on, and a summary, both only on a terminal. */
#ifndef PROGRESS_H
#define PROGRESS_H

#include <stdint.h>

/* From here on time counts. */
void begin_work(void);

/* The tool reads or writes a file of so many bytes, 0 where that isn't known. */
void begin_reading(const char *name, uint64_t bytes);
void begin_writing(const char *name, uint64_t bytes);

/* The library is called with so many bytes; it says nothing before it is done. */
void begin_call(const char *doing, uint64_t bytes);

/* So many bytes more are read or written. */
void count_bytes(uint64_t bytes);

/* Clears the line; nothing is shown before the next step begins. */
void end_step(void);

/* Time, bytes read and written, where it took over a second. */
void end_work(void);

#endif
