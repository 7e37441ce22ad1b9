/* Is it a printing character other than the space? */
#include <ctype.h>

int isgraph(int c)
{
    return (unsigned)c - '!' < 94;
}
