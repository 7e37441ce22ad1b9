/* A number as digits, to any base from 2 to 36: at most 16 characters and a zero. A sign is written to base 10 alone. */
#include <stdlib.h>

char *utoa(unsigned int n, char *s, int base)
{
    char digits[16];
    char *p = digits, *end = s;

    do {
        *p = (char)(n % base);
        *p += *p < 10 ? '0' : 'a' - 10;
        ++p;
        n /= base;
    } while (n);
    while (p != digits)
        *end++ = *--p;
    *end = 0;
    return s;
}

char *itoa(int n, char *s, int base)
{
    if (n < 0 && base == 10) {
        *s = '-';
        utoa(-(unsigned int)n, s + 1, base);
        return s;
    }
    return utoa(n, s, base);
}
