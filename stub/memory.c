/* All that the library asks of the program around it. One instruction each, so that no compiler makes a call of it. */
#include <stddef.h>

void *memcpy(void *to, const void *from, size_t length);
void *memset(void *to, int byte, size_t length);

void *memcpy(void *to, const void *from, size_t length)
{
    void *next = to;
    __asm__ volatile("rep movsb" : "+D"(next), "+S"(from), "+c"(length) : : "memory");
    return to;
}

void *memset(void *to, int byte, size_t length)
{
    void *next = to;
    __asm__ volatile("rep stosb" : "+D"(next), "+c"(length) : "a"(byte) : "memory");
    return to;
}
