/* The first character that is one of a set, or NULL. */
#include <string.h>

char *strpbrk(const char *s, const char *set)
{
    s += strcspn(s, set);
    return *s ? (char *)s : NULL;
}
