/* How at most n characters of two strings compare. */
#include <string.h>

int strncmp(const char *a, const char *b, size_t n)
{
    for (; n; ++a, ++b, --n) {
        if (*a != *b)
            return (unsigned char)*a - (unsigned char)*b;
        if (!*a)
            break;
    }
    return 0;
}
