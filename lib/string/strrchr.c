/* The last c of a string, its zero included, or NULL. */
#include <string.h>

char *strrchr(const char *s, int c)
{
    const char *found = NULL;

    do
        if (*s == (char)c)
            found = s;
    while (*s++);
    return (char *)found;
}
