/* Writes a byte. */
#include <stdio.h>

int putc(int c, FILE *stream)
{
    return stream == stdin ? EOF : putchar(c);
}
