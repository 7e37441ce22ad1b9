/* Writes a byte. */
#include <stdio.h>

int fputc(int c, FILE *stream)
{
    return stream == stdin ? EOF : putchar(c);
}
