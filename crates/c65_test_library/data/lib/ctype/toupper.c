/* The capital letter of a small one; others as they are. */
#include <ctype.h>

int toupper(int c)
{
    return islower(c) ? c - 'a' + 'A' : c;
}
