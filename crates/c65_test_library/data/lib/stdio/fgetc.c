/* The next byte of the input, or EOF. */
#include <stdio.h>

int fgetc(FILE *stream)
{
    return stream == stdin ? getchar() : EOF;
}
