/* The small letter of a capital one; others as they are. */
#include <ctype.h>

int tolower(int c)
{
    return isupper(c) ? c - 'A' + 'a' : c;
}
