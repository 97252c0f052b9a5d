/* All that the archives need from outside, in a program without the C library. It is linked, not run. */
#include <stddef.h>

void *memcpy(void *to, const void *from, size_t length)
{
    for (size_t i = 0; i < length; i++)
        ((unsigned char *)to)[i] = ((const unsigned char *)from)[i];
    return to;
}

void *memset(void *memory, int byte, size_t length)
{
    for (size_t i = 0; i < length; i++)
        ((unsigned char *)memory)[i] = (unsigned char)byte;
    return memory;
}

void _start(void)
{
    for (;;)
        ;
}
