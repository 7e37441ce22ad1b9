/* Ends the program at once, with a status that is not 0: 3, as cc65 has it. */
#include <stdlib.h>

void abort(void)
{
    exit(3);
}
