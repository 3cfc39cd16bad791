/* memcpy and memmove that count the bytes they move, in the place of the C library's. Moves that a compiler writes out are not seen. */
#include <stddef.h>
#include <stdint.h>

static uint64_t moved;

uint64_t bench_moved(void)
{
    return moved;
}

void *memmove(void *to, const void *from, size_t length)
{
    unsigned char *t = to;
    const unsigned char *f = from;
    moved += length;
    if ((uintptr_t)t <= (uintptr_t)f)
        for (size_t i = 0; i < length; i++)
            t[i] = f[i];
    else
        for (size_t i = length; i > 0; i--)
            t[i - 1] = f[i - 1];
    return to;
}

void *memcpy(void *restrict to, const void *restrict from, size_t length)
{
    return memmove(to, from, length);
}
