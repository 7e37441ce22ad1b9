/* Copies n bytes, which may overlap. */
#include <string.h>

void *memmove(void *to, const void *from, size_t n)
{
    char *p = to;
    const char *q = from;

    if (p <= q)
        return memcpy(to, from, n);
    while (n) {
        --n;
        p[n] = q[n];
    }
    return to;
}
