/* The next piece of a string that has none of a set in it, or NULL. */
#include <string.h>

char *strtok(char *s, const char *stop)
{
    static char *rest;

    if (!s)
        s = rest;
    if (!s)
        return NULL;
    s += strspn(s, stop);
    if (!*s)
        return rest = NULL;
    rest = strpbrk(s, stop);
    if (rest)
        *rest++ = 0;
    return s;
}
