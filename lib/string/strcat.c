/* Copies a string behind another. */
#include <string.h>

char *strcat(char *to, const char *from)
{
    strcpy(to + strlen(to), from);
    return to;
}
