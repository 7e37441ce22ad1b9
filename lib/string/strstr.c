/* The first place of a part in a string, or NULL. */
#include <string.h>

char *strstr(const char *s, const char *part)
{
    size_t n = strlen(part);

    do
        if (!strncmp(s, part, n))
            return (char *)s;
    while (*s++);
    return NULL;
}
