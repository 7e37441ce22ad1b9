/* A line of the input with its line feed, in memory of malloc that grows with it: its length, or -1 where nothing is
   left or memory is wanting. */
#include <stdio.h>
#include <stdlib.h>

int getline(char **line, size_t *size, FILE *stream)
{
    size_t count = 0;
    char *wider;
    int c = 0;

    if (stream != stdin)
        return -1;
    if (!*line)
        *size = 0;
    while (c != '\n' && (c = getchar()) != EOF) {
        if (count + 2 > *size) {
            wider = realloc(*line, *size + 32);
            if (!wider)
                return -1;
            *line = wider;
            *size += 32;
        }
        (*line)[count++] = c;
    }
    if (!count)
        return -1;
    (*line)[count] = 0;
    return count;
}
