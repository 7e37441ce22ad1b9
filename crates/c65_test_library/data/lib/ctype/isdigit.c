/* Is it a decimal digit? */
#include <ctype.h>

int isdigit(int c)
{
    return (unsigned)c - '0' < 10;
}
