/* Is it white space? */
#include <ctype.h>

int isspace(int c)
{
    return c == ' ' || (unsigned)c - '\t' < 5;
}
