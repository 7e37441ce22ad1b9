/* Is it a hexadecimal digit? */
#include <ctype.h>

int isxdigit(int c)
{
    return isdigit(c) || (unsigned)c - 'A' < 6 || (unsigned)c - 'a' < 6;
}
