/* Is it a printing character? */
#include <ctype.h>

int isprint(int c)
{
    return (unsigned)c - ' ' < 95;
}
