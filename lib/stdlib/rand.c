/* Numbers that look like chance, 0 to RAND_MAX: the generator that C90 7.10.2 shows. */
#include <stdlib.h>

static unsigned long next = 1;

int rand(void)
{
    next = next * 1103515245 + 12345;
    return (int)(next >> 16) & RAND_MAX;
}

void srand(unsigned int seed)
{
    next = seed;
}
