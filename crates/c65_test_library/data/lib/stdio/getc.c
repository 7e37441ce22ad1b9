/* The next byte of the input, or EOF. */
#include <stdio.h>

int getc(FILE *stream)
{
    return stream == stdin ? getchar() : EOF;
}
