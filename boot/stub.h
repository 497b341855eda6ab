/* The stub itself: what start.S and the linker script lay out, and where C begins. */
#ifndef STUB_H
#define STUB_H

#include <stdint.h>

extern uint8_t stub_begin[], stub_end[]; /* all of it, whole pages */
extern uint8_t stack[], stack_end[];

void boot(uint32_t magic, uint64_t info) __attribute__((noreturn));

#endif
