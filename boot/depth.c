#include "depth.h"

#include "stub.h"

/* A byte that calls seldom leave, and the bytes that painting itself may need: fewer than a load takes. */
enum { PAINT = 0xa5, OWN = 512 };

void paint_stack(uint8_t *pointer)
{
    for (uint8_t *byte = stack; byte < pointer - OWN; byte++)
        *byte = PAINT;
}

size_t stack_used(const uint8_t *pointer)
{
    const uint8_t *byte = stack;
    while (byte < pointer && *byte == PAINT)
        byte++;
    return (size_t)(pointer - byte);
}
