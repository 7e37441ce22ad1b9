/* A number as digits, to any base from 2 to 36: at most 32 characters and a zero. A sign is written to base 10 alone. */
#include <stdlib.h>

char *ultoa(unsigned long n, char *s, int base)
{
    char digits[32];
    char *p = digits, *end = s;

    do {
        *p = (char)(n % base);
        *p += *p < 10 ? '0' : 'a' - 10;
        ++p;
        n /= base;
    } while (n);
    while (p != digits)
        *end++ = *--p;
    *end = 0;
    return s;
}

char *ltoa(long n, char *s, int base)
{
    if (n < 0 && base == 10) {
        *s = '-';
        ultoa(-(unsigned long)n, s + 1, base);
        return s;
    }
    return ultoa(n, s, base);
}
