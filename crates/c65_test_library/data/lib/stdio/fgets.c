/* A line of the input with its line feed, cut where it does not fit; NULL where nothing is left. */
#include <stdio.h>

char *fgets(char *s, int size, FILE *stream)
{
    char *p = s;
    int c;

    if (size <= 0 || stream != stdin)
        return NULL;
    while (--size) {
        c = getchar();
        if (c == EOF) {
            if (p == s)
                return NULL;
            break;
        }
        *p++ = c;
        if (c == '\n')
            break;
    }
    *p = 0;
    return s;
}
