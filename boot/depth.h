/* How deep a call went on the stack. */
#ifndef DEPTH_H
#define DEPTH_H

#include <stddef.h>
#include <stdint.h>

/* The stack pointer of the function that asks. */
static inline uint8_t *stack_pointer(void)
{
    uint8_t *pointer;
    __asm__ volatile("mov %%rsp, %0" : "=r"(pointer));
    return pointer;
}

/* Paints the free part of the stack. */
void paint_stack(uint8_t *pointer);

/* How many bytes below the pointer were written to since. */
size_t stack_used(const uint8_t *pointer);

#endif
