/* How many characters stand before the first one of a set. */
#include <string.h>

size_t strcspn(const char *s, const char *stop)
{
    size_t n = 0;

    while (s[n] && !strchr(stop, s[n]))
        ++n;
    return n;
}
