/* Writes a string, without a line feed. */
#include <stdio.h>

int fputs(const char *s, FILE *stream)
{
    if (stream == stdin)
        return EOF;
    while (*s)
        putchar((unsigned char)*s++);
    return 0;
}
