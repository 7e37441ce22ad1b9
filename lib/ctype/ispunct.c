/* Is it a printing character that is neither a space nor a letter nor a digit? */
#include <ctype.h>

int ispunct(int c)
{
    return isgraph(c) && !isalnum(c);
}
