/* Is it a capital letter? */
#include <ctype.h>

int isupper(int c)
{
    return (unsigned)c - 'A' < 26;
}
