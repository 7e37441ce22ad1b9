/* Copies at most n characters of a string behind another, and a zero. */
#include <string.h>

char *strncat(char *to, const char *from, size_t n)
{
    char *p = to + strlen(to);

    while (n && *from) {
        *p++ = *from++;
        --n;
    }
    *p = 0;
    return to;
}
