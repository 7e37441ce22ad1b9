/* Assembles a program from the input up to the line `run`, lists its size, and runs it. */
#include <stdio.h>
#include "machine.h"

static const char *const endings[] = {
    "ended", "bad code", "empty stack", "full stack", "zero divisor", "too long"
};

int main(void)
{
    enum ending ending;

    if (!assemble())
        return 100;
    ending = run(20000);
    puts(endings[ending]);
    return ending;
}
