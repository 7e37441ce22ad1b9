/* The number at the beginning of a string, in decimal. */
#include <ctype.h>
#include <stdlib.h>

int atoi(const char *s)
{
    unsigned int n = 0;
    char is_negative;

    while (isspace((unsigned char)*s))
        ++s;
    is_negative = *s == '-';
    if (*s == '-' || *s == '+')
        ++s;
    while (isdigit((unsigned char)*s))
        n = n * 10 + (*s++ - '0');
    return is_negative ? -n : n;
}
