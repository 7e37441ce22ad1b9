/* The first c of a string, its zero included, or NULL. */
#include <string.h>

char *strchr(const char *s, int c)
{
    for (; *s != (char)c; ++s)
        if (!*s)
            return NULL;
    return (char *)s;
}
