/* How n bytes compare: by the first two that differ. */
#include <string.h>

int memcmp(const void *a, const void *b, size_t n)
{
    const unsigned char *p = a, *q = b;

    for (; n; ++p, ++q, --n)
        if (*p != *q)
            return *p - *q;
    return 0;
}
