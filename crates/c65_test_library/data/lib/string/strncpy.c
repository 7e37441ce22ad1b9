/* Copies n characters, with zeros behind the end of the string. */
#include <string.h>

char *strncpy(char *to, const char *from, size_t n)
{
    char *p = to;

    for (; n; --n) {
        *p++ = *from;
        if (*from)
            ++from;
    }
    return to;
}
